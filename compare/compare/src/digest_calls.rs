//! The digest and the running digest through the archive and through the
//! independent implementation.

use crate::differences::{Call, Differences};
use crate::guarded::{any_answer, any_bytes, any_numbers, Guarded};
use crate::tally::Function;
use independent::sha256::{sha256, RunningDigest};
use independent::Answer;
use inputs::random::Random;

/// The digest of all parts in one call, and fed part by part.
pub fn call_digest(parts: &[Vec<u8>], random: &mut Random) -> Vec<Call> {
    let mut calls = vec![call_sha256(&parts.concat(), random)];
    let mut state = RunningDigest::start();
    let start = start_differences(&state, random);
    for part in parts {
        calls.push(call_feed(&state, part, random));
        state = state.feed(part).next;
    }
    let mut finish = call_finish(&state, random);
    finish.differences.extend(start);
    calls.push(finish);
    calls
}

fn call_sha256(message: &[u8], random: &mut Random) -> Call {
    let (mut digest, mut answer) = (any_bytes(32, random), any_answer(random));
    eddyplume::sha256(message, digest.array(), answer.cell());
    let mut differences = Differences::default();
    differences.answer(&answer, Answer::accepted(0));
    differences.written("the digest", &digest, Some(&sha256(message)));
    differences.call(Function::Sha256, &answer)
}

/// A running digest in three guarded buffers.
struct LentState {
    words: Guarded<u32>,
    waiting: Guarded<u8>,
    counts: Guarded<u64>,
}

impl LentState {
    fn holding(state: &RunningDigest, random: &mut Random) -> LentState {
        LentState {
            words: Guarded::holding(&state.words, || random.number() as u32),
            waiting: Guarded::holding(&state.waiting, || random.byte()),
            counts: Guarded::holding(&counts(state), || random.number()),
        }
    }

    /// The buffers hold this running digest.
    fn hold(&self, differences: &mut Differences, wanted: &RunningDigest) {
        differences.hold(self.words.now() == wanted.words, || "other words".to_string());
        let waiting = self.waiting.now() == wanted.waiting;
        differences.hold(waiting, || "other waiting bytes".to_string());
        let (now, wanted) = (self.counts.now(), counts(wanted));
        differences.hold(now == wanted, || format!("counts {now:?}, not {wanted:?}"));
        differences.guards("the words", &self.words);
        differences.guards("the waiting bytes", &self.waiting);
        differences.guards("the counts", &self.counts);
    }
}

fn counts(state: &RunningDigest) -> [u64; 2] {
    [state.count as u64, state.total]
}

/// In what the archive's start differs. It has no answer, so it is no call of
/// its own in the counts.
fn start_differences(start: &RunningDigest, random: &mut Random) -> Vec<String> {
    let mut state = LentState {
        words: Guarded::any(8, || random.number() as u32),
        waiting: any_bytes(64, random),
        counts: any_numbers(2, random),
    };
    eddyplume::digest_start(state.words.array(), state.waiting.array(), state.counts.array());
    let mut differences = Differences::default();
    state.hold(&mut differences, start);
    differences.found().iter().map(|difference| format!("digest_start: {difference}")).collect()
}

pub fn call_feed(from: &RunningDigest, bytes: &[u8], random: &mut Random) -> Call {
    let mut state = LentState::holding(from, random);
    let mut answer = any_answer(random);
    let LentState { words, waiting, counts } = &mut state;
    let (words, waiting, counts) = (words.array(), waiting.array(), counts.array());
    eddyplume::digest_feed(words, waiting, counts, bytes, answer.cell());
    let wanted = from.feed(bytes);
    let mut differences = Differences::default();
    differences.answer(&answer, wanted.answer);
    state.hold(&mut differences, &wanted.next);
    differences.call(Function::DigestFeed, &answer)
}

pub fn call_finish(from: &RunningDigest, random: &mut Random) -> Call {
    let mut state = LentState::holding(from, random);
    let (mut digest, mut answer) = (any_bytes(32, random), any_answer(random));
    let LentState { words, waiting, counts } = &mut state;
    let (words, waiting, counts) = (words.array(), waiting.array(), counts.array());
    eddyplume::digest_finish(words, waiting, counts, digest.array(), answer.cell());
    let wanted = from.finish();
    let mut differences = Differences::default();
    differences.answer(&answer, wanted.answer);
    let digest_wanted = wanted.answer.is_accepted().then_some(&wanted.digest[..]);
    differences.written("the digest", &digest, digest_wanted);
    state.hold(&mut differences, from);
    differences.call(Function::DigestFinish, &answer)
}
