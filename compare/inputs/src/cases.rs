//! Random cases for the functions at the boundary.

use crate::coding::{code, Element};
use crate::damage::damaged;
use crate::data_sets::{
    code_in, deep, draw_elements, draw_tag, long_body, long_size, short, wide, Style,
};
use crate::digests;
use crate::random::Random;
use crate::signatures::signed;
use crate::tag_lists::tag_list;
use expect::case::{Case, Expected};
use independent::reading::Tag;
use independent::sha256::sha256;
use independent::{list_mode, signature_mode, Streamed};

/// Case number `index` of the run with this seed.
pub fn case(seed: u64, index: u64) -> Case {
    let random = &mut Random::of_case(seed, index);
    match random.below(100) {
        0..=21 => list(random),
        22..=41 => list_check(random),
        42..=60 => signature(random),
        61..=77 => signature_check(random),
        78..=87 => lookup(random),
        88..=91 => Case::Digest { parts: digests::parts(random) },
        92..=95 => {
            let state = digests::state(random);
            Case::Feed { state, bytes: digests::fed_bytes(random, &state) }
        }
        _ => Case::Finish { state: digests::state(random) },
    }
}

fn list(random: &mut Random) -> Case {
    let (list, data) = list_and_data(random);
    let streamed = list_mode::stream(&data, &list, usize::MAX);
    Case::List { room: room(random, &streamed), list, data }
}

fn list_check(random: &mut Random) -> Case {
    let (list, data) = list_and_data(random);
    let streamed = list_mode::stream(&data, &list, usize::MAX);
    Case::ListCheck { room: room(random, &streamed), expected: expected(random, &streamed), list, data }
}

fn signature(random: &mut Random) -> Case {
    let (uid, which, data) = signed_data(random);
    let streamed = signature_mode::stream(&data, &uid, which, usize::MAX);
    Case::Signature { room: room(random, &streamed), uid, which, data }
}

fn signature_check(random: &mut Random) -> Case {
    let (uid, which, data) = signed_data(random);
    let streamed = signature_mode::stream(&data, &uid, which, usize::MAX);
    Case::SignatureCheck {
        room: room(random, &streamed),
        expected: expected(random, &streamed),
        uid,
        which,
        data,
    }
}

fn lookup(random: &mut Random) -> Case {
    let (elements, data) = data_set(random);
    let tag = if elements.is_empty() || random.chance(30) {
        draw_tag(random, 10)
    } else {
        elements[random.below(elements.len())].tag
    };
    Case::Lookup { tag: Tag(tag), data }
}

pub(crate) fn list_and_data(random: &mut Random) -> (Vec<u8>, Vec<u8>) {
    let (elements, data) = data_set(random);
    (tag_list(random, &elements), data)
}

/// A data set, and the top-level elements of which a list may be made.
fn data_set(random: &mut Random) -> (Vec<Element>, Vec<u8>) {
    let style = Style::any(random);
    match random.below(1_000) {
        0..=9 => {
            let elements = long_body(random, style);
            let size = long_size(random);
            (elements.clone(), code_in(elements, size))
        }
        10..=24 => {
            let elements = wide(random);
            let data = code(&elements).bytes;
            (elements, data)
        }
        25..=104 => {
            let innermost = random.between(15, 17);
            let elements = deep(random, innermost);
            (elements.clone(), coded(random, &elements, 20))
        }
        105..=154 => (draw_elements(random, style, 0), short(random)),
        _ => {
            let elements = draw_elements(random, style, 0);
            (elements.clone(), coded(random, &elements, 40))
        }
    }
}

/// The coding of `elements`, damaged in `damage` of a hundred cases.
fn coded(random: &mut Random, elements: &[Element], damage: usize) -> Vec<u8> {
    let coded = code(elements);
    if random.chance(damage) {
        damaged(random, &coded)
    } else {
        coded.bytes
    }
}

/// The caller's UID, the signature's number and the data set.
fn signed_data(random: &mut Random) -> (Vec<u8>, Option<usize>, Vec<u8>) {
    let style = Style::any(random);
    let (body, size) = match random.below(1_000) {
        0..=9 => (long_body(random, style), Some(long_size(random))),
        10..=24 => (wide(random), None),
        25..=64 => {
            let innermost = random.between(15, 17);
            (deep(random, innermost), None)
        }
        _ => (draw_elements(random, style, 0), None),
    };
    let signed = signed(random, body);
    let data = match size {
        Some(size) => code_in(signed.elements, size),
        None => coded(random, &signed.elements, 20),
    };
    (signed.uid, signed.which, data)
}

/// Output room for a stream: just enough, one less, none, more.
fn room(random: &mut Random, streamed: &Streamed) -> usize {
    let length = streamed.answer.length as usize;
    match random.below(20) {
        0..=8 => length,
        9 | 10 => length.saturating_sub(1),
        11 => 0,
        12 => random.between(0, length),
        13 | 14 => length + 1,
        _ => length + random.between(2, 70),
    }
}

/// An expected digest: the right one, a wrong one, one of another length.
fn expected(random: &mut Random, streamed: &Streamed) -> Expected {
    let mut digest = sha256(streamed.stream.as_deref().unwrap_or(&[])).to_vec();
    match random.below(20) {
        0..=9 => {}
        10..=13 => digest[random.below(32)] ^= 1 << random.below(8),
        14 => digest = random.bytes(32),
        15 => digest = vec![0; 32],
        _ => digest.resize(random.pick(&[0, 1, 16, 31, 33, 64]), 0),
    }
    Expected::Bytes(digest)
}

#[cfg(test)]
mod tests {
    use super::*;

    #[test]
    fn the_same_from_the_seed_alone() {
        let run = |seed| (0..200).map(|index| case(seed, index)).collect::<Vec<_>>();
        assert_eq!(run(1), run(1));
        assert_ne!(run(1), run(2));
    }

    #[test]
    fn rooms_and_digests_at_every_side() {
        let streamed = list_mode::stream(&[8, 0, 0x60, 0, b'C', b'S', 0, 0], &[8, 0, 0x60, 0], 8);
        assert_eq!(streamed.answer.length, 8);
        let mut random = Random::new(1);
        let rooms: Vec<usize> = (0..300).map(|_| room(&mut random, &streamed)).collect();
        assert!([0, 7, 8, 9].iter().all(|room| rooms.contains(room)));
        let right = Expected::Bytes(sha256(streamed.stream.as_deref().unwrap()).to_vec());
        let digests: Vec<Expected> = (0..300).map(|_| expected(&mut random, &streamed)).collect();
        assert!(digests.contains(&right));
        assert!(digests.contains(&Expected::Bytes(vec![])));
        assert!(digests.contains(&Expected::Bytes(vec![0; 32])));
    }
}
