//! Random messages in parts, and running digests, possible and impossible.

use crate::random::Random;
use independent::sha256::{RunningDigest, MOST_TOTAL, START_WORDS};

/// A message in one to five parts, with lengths about the block's.
pub fn parts(random: &mut Random) -> Vec<Vec<u8>> {
    (0..random.between(1, 5))
        .map(|_| {
            let length = match random.below(3) {
                0 => random.pick(&[0, 1, 55, 56, 57, 63, 64, 65, 119, 120, 127, 128, 129]),
                1 => random.below(64),
                _ => random.below(300),
            };
            random.bytes(length)
        })
        .collect()
}

/// A running digest.
pub fn state(random: &mut Random) -> RunningDigest {
    let total = match random.below(8) {
        0 | 1 => random.below(1_000) as u64,
        2 => random.number() & MOST_TOTAL,
        3 | 4 => MOST_TOTAL - random.below(200) as u64,
        5 => MOST_TOTAL,
        6 => MOST_TOTAL + random.between(1, 65) as u64,
        _ => u64::MAX - random.below(70) as u64,
    };
    let count = (total % 64) as usize;
    let mut waiting = [0; 64];
    waiting[..count].copy_from_slice(&random.bytes(count));
    let words = if random.chance(30) {
        START_WORDS
    } else {
        std::array::from_fn(|_| random.number() as u32)
    };
    let mut state = RunningDigest { words, waiting, count, total };
    if random.chance(25) {
        make_impossible(random, &mut state);
    }
    state
}

/// Makes a running digest impossible.
fn make_impossible(random: &mut Random, state: &mut RunningDigest) {
    match random.below(6) {
        0 => state.count = (state.count + 1) % 64,
        1 => state.count += 64,
        2 => state.count = random.pick(&[64, 65, 1 << 32, usize::MAX]),
        3 => state.total ^= 1,
        4 => state.waiting[63] = random.between(1, 255) as u8,
        _ => state.waiting[state.count] = random.between(1, 255) as u8,
    }
}

/// Bytes to feed: few, or as many as reach the largest total or pass it.
pub fn fed_bytes(random: &mut Random, state: &RunningDigest) -> Vec<u8> {
    let room = MOST_TOTAL.saturating_sub(state.total) as usize;
    let length = if room < 1_000 && random.chance(60) {
        room + random.below(3)
    } else {
        random.pick(&[0, 1, 2, 63, 64, 65, 200])
    };
    random.bytes(length)
}

#[cfg(test)]
mod tests {
    use super::*;

    #[test]
    fn possible_and_impossible_ones_at_both_sides_of_the_limit() {
        let (mut refused, mut reached, mut impossible) = (0, 0, 0);
        for index in 0..2_000 {
            let mut random = Random::of_case(1, index);
            let state = state(&mut random);
            let fed = state.feed(&fed_bytes(&mut random, &state));
            refused += usize::from(fed.answer.number == 25);
            reached += usize::from(fed.answer.number == 0 && fed.next.total == MOST_TOTAL);
            impossible += usize::from(!state.possible());
        }
        assert!(refused > 200 && reached > 100 && impossible > 200 && impossible < 700);
    }
}
