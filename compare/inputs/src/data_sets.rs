//! Random data sets that are well-formed, or of a depth or size at the limit.

use crate::coding::{code, tag_bytes, Element, Item, Value};
use crate::random::Random;
use independent::reading::{LONG_FORM, MOST_BYTES, SHORT_FORM};

/// What may stand in a random data set, in percent of its elements.
#[derive(Clone, Copy)]
pub struct Style {
    pub unknown: usize,
    pub barred: usize,
    pub sequences: usize,
    pub fragments: usize,
}

impl Style {
    /// UN and barred tags in one of a few data sets each.
    pub fn any(random: &mut Random) -> Style {
        Style {
            unknown: random.pick(&[0, 0, 0, 3, 25]),
            barred: random.pick(&[0, 2, 2, 20]),
            sequences: random.pick(&[5, 20, 40]),
            fragments: random.pick(&[0, 5, 20]),
        }
    }
}

/// Tags that may not be listed.
pub const BARRED: [u32; 13] = [
    0x0000_0000, 0x0002_0010, 0x0004_1130, 0x0007_FFFF, 0x0008_0000, 0x0008_0001, 0x0010_0000,
    0x4FFE_0001, 0x7FE0_0000, 0xFFFA_0000, 0xFFFA_0010, 0xFFFA_FFFA, 0xFFFC_FFFC,
];

/// Tags beside those that are barred, and the largest.
const BESIDE_BARRED: [u32; 9] = [
    0x0008_0002, 0x0008_0005, 0x4FFD_0001, 0x4FFE_0002, 0x4FFF_0001, 0xFFF9_FFFF, 0xFFFB_0001,
    0xFFFC_FFFE, 0xFFFF_FFFF,
];

const GROUPS: [u32; 9] = [0x0008, 0x0009, 0x0010, 0x0018, 0x0020, 0x0028, 0x0040, 0x0400, 0x7FE0];

/// A tag that is barred in `barred` of a hundred draws.
pub fn draw_tag(random: &mut Random, barred: usize) -> u32 {
    if random.chance(barred) {
        return random.pick(&BARRED);
    }
    if random.chance(3) {
        return random.pick(&BESIDE_BARRED);
    }
    random.pick(&GROUPS) << 16 | random.between(2, 0x180) as u32
}

/// `count` drawn tags in rising order, each once.
fn draw_tags(random: &mut Random, count: usize, barred: usize) -> Vec<u32> {
    let mut tags: Vec<u32> = (0..count).map(|_| draw_tag(random, barred)).collect();
    tags.sort_unstable();
    tags.dedup();
    tags
}

/// Elements of one data set at `level`; sequences get rarer inside.
pub fn draw_elements(random: &mut Random, style: Style, level: usize) -> Vec<Element> {
    let (least, most) = if level == 0 {
        (usize::from(random.chance(95)), random.pick(&[3, 8, 8, 25]))
    } else {
        (0, 4)
    };
    let count = random.between(least, most);
    draw_tags(random, count, style.barred)
        .into_iter()
        .map(|tag| draw_element(random, style, level, tag))
        .collect()
}

fn draw_element(random: &mut Random, style: Style, level: usize, tag: u32) -> Element {
    if random.chance(style.unknown) {
        return Element { tag, vr: *b"UN", value: Value::Bytes(draw_value(random)) };
    }
    if random.chance(style.sequences / (level + 1)) {
        let items = (0..random.pick(&[0, 1, 1, 2, 3]))
            .map(|_| Item {
                elements: draw_elements(random, style, level + 1),
                undefined: random.chance(50),
            })
            .collect();
        return Element::sequence(tag, items, random.chance(50));
    }
    if random.chance(style.fragments) {
        let fragments = (0..random.below(4)).map(|_| draw_value(random)).collect();
        return Element::fragments(tag, fragments);
    }
    let vr = if random.chance(75) {
        *random.pick(&SHORT_FORM)
    } else {
        *random.pick(&[b"OB", b"OW", b"OF", b"UT"])
    };
    Element { tag, vr, value: Value::Bytes(draw_value(random)) }
}

/// A value of even length, mostly small; some look like delimiters.
fn draw_value(random: &mut Random) -> Vec<u8> {
    const LIKE_DELIMITERS: [&[u8]; 3] = [
        &[0xFE, 0xFF, 0xDD, 0xE0, 0, 0, 0, 0],
        &[0xFE, 0xFF, 0x0D, 0xE0, 0, 0, 0, 0],
        &[0xFE, 0xFF, 0x00, 0xE0, 0xFF, 0xFF, 0xFF, 0xFF],
    ];
    if random.chance(3) {
        return random.pick(&LIKE_DELIMITERS).to_vec();
    }
    let half = if random.chance(95) { random.below(9) } else { random.below(400) };
    random.bytes(2 * half)
}

/// Sequences one in the other, the innermost at `innermost` (the outermost is
/// at level 0), with an element or nothing in it.
pub fn deep(random: &mut Random, innermost: usize) -> Vec<Element> {
    let tag = 0x0040_A730;
    let mut inside = match random.below(4) {
        0 => vec![],
        1 => vec![Element::bytes(0x0008_0100, b"SH", b"A1")],
        2 => vec![Element::fragments(0x7FE0_0010, vec![vec![1, 2]])],
        _ => vec![Element::bytes(0x0009_0010, b"UN", b"")],
    };
    for _ in 0..=innermost {
        let items = if inside.is_empty() && random.chance(50) {
            vec![]
        } else {
            vec![Item { elements: inside, undefined: random.chance(50) }]
        };
        inside = vec![Element::sequence(tag, items, random.chance(50))];
        if random.chance(10) {
            inside.insert(0, Element::bytes(0x0008_0001, b"UL", &[1, 0, 0, 0]));
        }
    }
    inside
}

/// More top-level elements than a list may have tags.
pub fn wide(random: &mut Random) -> Vec<Element> {
    let count = random.between(1_020, 1_100) as u32;
    (0..count)
        .map(|index| {
            let vr = if random.chance(90) { *random.pick(&SHORT_FORM) } else { *b"OW" };
            let length = 2 * random.below(3);
            Element { tag: 0x0021_1000 + index, vr, value: Value::Bytes(random.bytes(length)) }
        })
        .collect()
}

pub const PIXEL_DATA: u32 = 0x7FE0_0010;

/// Elements coded in exactly `size` bytes: those given, with pixel data that
/// fills up. `size` is even and leaves room for it.
pub fn filled(mut elements: Vec<Element>, size: usize) -> Vec<Element> {
    elements.retain(|element| element.tag != PIXEL_DATA);
    let room = size - code(&elements).bytes.len() - 12;
    let value: Vec<u8> = (0..room).map(|at| (at / 4_096) as u8).collect();
    let at = elements.partition_point(|element| element.tag < PIXEL_DATA);
    elements.insert(at, Element { tag: PIXEL_DATA, vr: *b"OW", value: Value::Bytes(value) });
    elements
}

/// The size of a long data set: at the limit, one above, or near it.
pub fn long_size(random: &mut Random) -> usize {
    match random.below(10) {
        0..=4 => MOST_BYTES,
        5..=7 => MOST_BYTES + 1,
        8 => random.pick(&[MOST_BYTES - 2, MOST_BYTES + 2]),
        _ => 2 * random.between(100_000, MOST_BYTES / 2),
    }
}

/// A random data set that has pixel data, and sometimes a long sequence.
pub fn long_body(random: &mut Random, style: Style) -> Vec<Element> {
    let mut elements = draw_elements(random, style, 0);
    if random.chance(30) {
        let item = Item { elements: elements.clone(), undefined: random.chance(50) };
        elements.retain(|element| element.tag < 0x0021_0000);
        let once = code(&[Element::sequence(0, vec![item.clone()], false)]).bytes.len();
        let items = vec![item; random.between(1, 100_000 / once)];
        elements.push(Element::sequence(0x0021_1001, items, random.chance(50)));
    }
    filled(elements, MOST_BYTES / 2)
}

/// The coding of `elements` in `size` bytes, by longer or shorter pixel data;
/// an odd size has one byte too much.
pub fn code_in(elements: Vec<Element>, size: usize) -> Vec<u8> {
    let mut bytes = code(&filled(elements, size - size % 2)).bytes;
    bytes.resize(size, 0);
    bytes
}

/// 0 to 20 bytes, from nothing like a data set to nearly one.
pub fn short(random: &mut Random) -> Vec<u8> {
    let mut bytes = random.bytes(20);
    if random.chance(80) {
        bytes[..4].copy_from_slice(&tag_bytes(draw_tag(random, 10)));
        let vr = if random.chance(60) { random.pick(&SHORT_FORM) } else { random.pick(&LONG_FORM) };
        bytes[4..6].copy_from_slice(vr);
        bytes[6..12].fill(0);
        if random.chance(50) {
            bytes[random.between(6, 8)] = random.below(14) as u8;
        }
    }
    bytes.truncate(random.between(0, 20));
    bytes
}

#[cfg(test)]
mod tests {
    use super::*;
    use independent::reading::{read, Tag};

    #[test]
    fn barred_tags_are_barred_and_those_beside_are_not() {
        let is_barred = |tag: &u32| independent::tag_list::is_barred(Tag(*tag));
        assert!(BARRED.iter().all(is_barred));
        assert!(!BESIDE_BARRED.iter().any(is_barred));
    }

    #[test]
    fn random_data_sets_are_well_formed() {
        for index in 0..2_000 {
            let mut random = Random::of_case(1, index);
            let style = Style::any(&mut random);
            let data = code(&draw_elements(&mut random, style, 0)).bytes;
            assert_eq!(read(&data).answer.number, 0, "{index}");
            assert_eq!(read(&code(&wide(&mut random)).bytes).answer.number, 0, "{index}");
        }
    }

    #[test]
    fn depth_is_refused_from_level_16_on() {
        for index in 0..200 {
            let mut random = Random::of_case(2, index);
            for (innermost, number) in [(14, 0), (15, 0), (16, 8), (17, 8)] {
                assert_eq!(read(&code(&deep(&mut random, innermost)).bytes).answer.number, number);
            }
        }
    }

    #[test]
    fn sizes_at_the_limit() {
        let mut sizes = Vec::new();
        for index in 0..60 {
            let mut random = Random::of_case(3, index);
            let style = Style::any(&mut random);
            let (elements, size) = (long_body(&mut random, style), long_size(&mut random));
            let data = code_in(elements, size);
            assert_eq!(data.len(), size);
            assert_eq!(read(&data).answer.number, u64::from(size > MOST_BYTES));
            sizes.push(size);
        }
        for size in [MOST_BYTES, MOST_BYTES + 1, MOST_BYTES + 2] {
            assert!(sizes.contains(&size));
        }
        assert_eq!(code(&filled(vec![], 1_000)).bytes.len(), 1_000);
    }

    #[test]
    fn short_ones_have_0_to_20_bytes() {
        let sizes: Vec<usize> =
            (0..2_000).map(|index| short(&mut Random::of_case(4, index)).len()).collect();
        assert!((0..=20).all(|size| sizes.contains(&size)));
    }
}
