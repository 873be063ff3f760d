//! One case through the archive and through the independent implementation.

use crate::differences::{Call, Differences};
use crate::digest_calls::{call_digest, call_feed, call_finish};
use crate::guarded::{any_answer, any_bytes, any_numbers};
use crate::tally::{Function, Outcome};
use expect::case::{Case, Expected};
use expect::lines::expected_digest;
use independent::reading::Tag;
use independent::{list_mode, lookup, signature_mode, Answer, Checked, Streamed, Verdict};
use inputs::random::Random;

/// The calls that a case stands for. What lies in the lent buffers before is
/// drawn from `random`.
pub fn calls(case: &Case, random: &mut Random) -> Vec<Call> {
    match case {
        // No function of the archive reads alone, or takes a frame.
        Case::Read { .. } | Case::One { .. } | Case::Frame { .. } => Vec::new(),
        Case::Lookup { tag, data } => vec![call_lookup(data, *tag, random)],
        Case::List { room, list, data } => {
            let [measure, stream] = call_list_measure(list, data, random);
            vec![measure, stream, call_list_stream(*room, list, data, random)]
        }
        Case::ListCheck { room, expected, list, data } => {
            let [measure, stream] = call_list_measure(list, data, random);
            vec![measure, stream, call_list_check(*room, expected, list, data, random)]
        }
        Case::Signature { room, uid, which, data } => {
            let [measure, stream] = call_signature_measure(uid, *which, data, random);
            vec![measure, stream, call_signature_stream(*room, uid, *which, data, random)]
        }
        Case::SignatureCheck { room, expected, uid, which, data } => {
            let [measure, stream] = call_signature_measure(uid, *which, data, random);
            let check = call_signature_check(*room, expected, uid, *which, data, random);
            vec![measure, stream, check]
        }
        Case::ListMeasure { list, data } => call_list_measure(list, data, random).into(),
        Case::SignatureMeasure { uid, which, data } => {
            call_signature_measure(uid, *which, data, random).into()
        }
        Case::Digest { parts } => call_digest(parts, random),
        Case::Feed { state, bytes } => vec![call_feed(state, bytes, random)],
        Case::Finish { state } => vec![call_finish(state, random)],
    }
}

fn call_lookup(data: &[u8], tag: Tag, random: &mut Random) -> Call {
    let (mut answer, mut part) = (any_answer(random), any_numbers(3, random));
    eddyplume::lookup(data, tag.0, answer.cell(), part.array());
    let wanted = lookup::lookup(data, tag);
    let wanted_part = [wanted.stands.into(), wanted.offset as u64, wanted.value.len() as u64];
    let mut differences = Differences::default();
    differences.answer(&answer, wanted.answer);
    let same_part = part.now() == wanted_part;
    differences.hold(same_part, || format!("part {:?}, not {wanted_part:?}", part.now()));
    differences.guards("the part", &part);
    let mut call = differences.call(Function::Lookup, &answer);
    if wanted.answer.is_accepted() {
        call.outcomes.push(Outcome::Said(if wanted.stands { "present" } else { "absent" }));
    }
    call
}

fn call_list_stream(room: usize, list: &[u8], data: &[u8], random: &mut Random) -> Call {
    let wanted = list_mode::stream(data, list, room);
    stream_call(Function::ListStream, room, &wanted, random, |out, answer| {
        eddyplume::list_stream(list, data, out, answer)
    })
}

/// Measures, then calls for the stream with just the room measured.
fn call_list_measure(list: &[u8], data: &[u8], random: &mut Random) -> [Call; 2] {
    let wanted = list_mode::measure(data, list);
    let measure = measure_call(Function::ListMeasure, wanted, random, |answer| {
        eddyplume::list_measure(list, data, answer)
    });
    as_measured(measure, call_list_stream(wanted.length as usize, list, data, random))
}

fn call_list_check(
    room: usize,
    expected: &Expected,
    list: &[u8],
    data: &[u8],
    random: &mut Random,
) -> Call {
    let expected = expected_digest(expected, || list_mode::stream(data, list, room));
    let wanted = list_mode::check(data, list, &expected, room);
    check_call(Function::ListCheck, room, &wanted, random, |work, answer, verdict| {
        eddyplume::list_check(list, data, &expected, work, answer, verdict)
    })
}

fn call_signature_stream(
    room: usize,
    uid: &[u8],
    which: Option<usize>,
    data: &[u8],
    random: &mut Random,
) -> Call {
    let wanted = signature_mode::stream(data, uid, which, room);
    let number = which.map(|which| which as u64);
    stream_call(Function::SignatureStream, room, &wanted, random, |out, answer| {
        eddyplume::signature_stream(uid, number, data, out, answer)
    })
}

/// Measures, then calls for the stream with just the room measured.
fn call_signature_measure(
    uid: &[u8],
    which: Option<usize>,
    data: &[u8],
    random: &mut Random,
) -> [Call; 2] {
    let wanted = signature_mode::measure(data, uid, which);
    let number = which.map(|which| which as u64);
    let measure = measure_call(Function::SignatureMeasure, wanted, random, |answer| {
        eddyplume::signature_measure(uid, number, data, answer)
    });
    as_measured(measure, call_signature_stream(wanted.length as usize, uid, which, data, random))
}

fn call_signature_check(
    room: usize,
    expected: &Expected,
    uid: &[u8],
    which: Option<usize>,
    data: &[u8],
    random: &mut Random,
) -> Call {
    let expected = expected_digest(expected, || signature_mode::stream(data, uid, which, room));
    let wanted = signature_mode::check(data, uid, which, &expected, room);
    let number = which.map(|which| which as u64);
    check_call(Function::SignatureCheck, room, &wanted, random, |work, answer, verdict| {
        eddyplume::signature_check(uid, number, data, &expected, work, answer, verdict)
    })
}

/// A call for the stream, of either mode.
fn stream_call(
    function: Function,
    room: usize,
    wanted: &Streamed,
    random: &mut Random,
    call: impl FnOnce(&mut [u8], &mut Answer),
) -> Call {
    let (mut out, mut answer) = (any_bytes(room, random), any_answer(random));
    call(out.lent(), answer.cell());
    let mut differences = Differences::default();
    differences.answer(&answer, wanted.answer);
    differences.written("the output", &out, wanted.stream.as_deref());
    differences.call(function, &answer)
}

/// A measuring call, of either mode.
fn measure_call(
    function: Function,
    wanted: Answer,
    random: &mut Random,
    call: impl FnOnce(&mut Answer),
) -> Call {
    let mut answer = any_answer(random);
    call(answer.cell());
    let mut differences = Differences::default();
    differences.answer(&answer, wanted);
    differences.call(function, &answer)
}

/// A call for the stream with just the room measured gives the answer that was measured.
fn as_measured(measure: Call, mut stream: Call) -> [Call; 2] {
    if stream.answer != measure.answer {
        stream.differences.push(format!("{:?} was measured", measure.answer));
    }
    [measure, stream]
}

/// A check, of either mode.
fn check_call(
    function: Function,
    room: usize,
    wanted: &Checked,
    random: &mut Random,
    call: impl FnOnce(&mut [u8], &mut Answer, &mut [u8; 1]),
) -> Call {
    let (mut work, mut answer) = (any_bytes(room, random), any_answer(random));
    let mut verdict = any_bytes(1, random);
    call(work.lent(), answer.cell(), verdict.array());
    let mut differences = Differences::default();
    differences.answer(&answer, wanted.answer);
    differences.written("the work buffer", &work, wanted.stream.as_deref());
    let (now, code) = (verdict.now()[0], wanted.verdict as u8);
    differences.hold(now == code, || format!("verdict {now}, not {code}"));
    differences.guards("the verdict", &verdict);
    let mut call = differences.call(function, &answer);
    call.outcomes.extend(match wanted.verdict {
        Verdict::Neither => None,
        Verdict::Same => Some(Outcome::Said("same")),
        Verdict::Differs => Some(Outcome::Said("differs")),
    });
    call
}
