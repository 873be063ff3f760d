//! Hand coding of elements for the tests.
#![allow(dead_code)]

use independent::Answer;

pub const A: [u8; 10] = [0x08, 0x00, 0x60, 0x00, 0x43, 0x53, 0x02, 0x00, 0x43, 0x54];
pub const B: [u8; 10] = [0x10, 0x00, 0x10, 0x00, 0x50, 0x4E, 0x02, 0x00, 0x4C, 0x69];
pub const S: [u8; 10] = [0x08, 0x00, 0x00, 0x01, 0x53, 0x48, 0x02, 0x00, 0x41, 0x31];

pub const ITEM_END: [u8; 8] = [0xFE, 0xFF, 0x0D, 0xE0, 0, 0, 0, 0];
pub const SEQUENCE_END: [u8; 8] = [0xFE, 0xFF, 0xDD, 0xE0, 0, 0, 0, 0];
pub const UNDEFINED: u32 = 0xFFFF_FFFF;

/// Content Sequence and Pixel Data.
pub const SQ: u32 = 0x0040_A730;
pub const PIXELS: u32 = 0x7FE0_0010;

/// Number and position of what is accepted.
pub const GOOD: (u64, u64) = (0, 0);

/// Number and position.
pub fn place(answer: Answer) -> (u64, u64) {
    (answer.number, answer.position)
}

/// Bytes from hex; spaces and commas are passed over.
pub fn hex(text: &str) -> Vec<u8> {
    let digits: Vec<u8> =
        text.chars().filter_map(|c| c.to_digit(16)).map(|digit| digit as u8).collect();
    digits.chunks_exact(2).map(|pair| pair[0] * 16 + pair[1]).collect()
}

pub fn join(parts: &[&[u8]]) -> Vec<u8> {
    parts.concat()
}

pub fn tag(tag: u32) -> Vec<u8> {
    let (group, element) = ((tag >> 16) as u16, tag as u16);
    join(&[&group.to_le_bytes(), &element.to_le_bytes()])
}

/// A tag list.
pub fn list(tags: &[u32]) -> Vec<u8> {
    tags.iter().flat_map(|&t| tag(t)).collect()
}

pub fn short(t: u32, vr: &str, value: &[u8]) -> Vec<u8> {
    join(&[&tag(t), vr.as_bytes(), &(value.len() as u16).to_le_bytes(), value])
}

/// A long form header with this length field.
pub fn long_header(t: u32, vr: &str, length: u32) -> Vec<u8> {
    join(&[&tag(t), vr.as_bytes(), &[0, 0], &length.to_le_bytes()])
}

pub fn long(t: u32, vr: &str, value: &[u8]) -> Vec<u8> {
    join(&[&long_header(t, vr, value.len() as u32), value])
}

/// An item header with this length field.
pub fn item_header(length: u32) -> Vec<u8> {
    join(&[&tag(0xFFFE_E000), &length.to_le_bytes()])
}

/// An item, or a fragment, of defined length.
pub fn item(content: &[u8]) -> Vec<u8> {
    join(&[&item_header(content.len() as u32), content])
}

/// An item of undefined length.
pub fn open_item(content: &[u8]) -> Vec<u8> {
    join(&[&item_header(UNDEFINED), content, &ITEM_END])
}

/// An element of undefined length.
pub fn open(t: u32, vr: &str, value: &[u8]) -> Vec<u8> {
    join(&[&long_header(t, vr, UNDEFINED), value, &SEQUENCE_END])
}

/// Sequences (0040,A730) one in the other, the outermost at level 0, `count`
/// in all; the innermost is empty.
pub fn nest(count: usize) -> Vec<u8> {
    let mut data = long(0x0040_A730, "SQ", &[]);
    for _ in 1..count {
        data = long(0x0040_A730, "SQ", &item(&data));
    }
    data
}
