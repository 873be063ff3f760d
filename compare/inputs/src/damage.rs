//! Damage to coded data sets, mostly at their headers.

use crate::coding::{tag_bytes, Coded, Header};
use crate::data_sets::draw_tag;
use crate::random::Random;
use independent::reading::{
    ITEM, ITEM_DELIMITATION, LONG_FORM, SEQUENCE_DELIMITATION, SHORT_FORM,
};

/// The tags of items and delimiters.
const STRUCTURE: [u32; 3] = [ITEM.0, ITEM_DELIMITATION.0, SEQUENCE_DELIMITATION.0];

/// The data set with one damage, sometimes two or three.
pub fn damaged(random: &mut Random, coded: &Coded) -> Vec<u8> {
    let mut data = Damaged { bytes: coded.bytes.clone(), headers: &coded.headers };
    for _ in 0..random.pick(&[1, 1, 1, 1, 2, 3]) {
        data.damage(random);
    }
    data.bytes
}

/// Bytes that were coded with these headers. After a damage that shifts them
/// the headers may be elsewhere, or gone; the next damage is then a blind one.
struct Damaged<'c> {
    bytes: Vec<u8>,
    headers: &'c [(usize, Header)],
}

impl Damaged<'_> {
    fn damage(&mut self, random: &mut Random) {
        match random.below(14) {
            0 => self.flip_bit_anywhere(random),
            1 => self.flip_bit_in_header(random),
            2 => {
                let at = self.place(random);
                self.bytes.truncate(at);
            }
            3 => self.insert(random),
            4 => self.remove(random),
            5..=7 => self.change_length(random),
            8 => self.drop_delimiter(random),
            9 => self.change_delimiter(random),
            10 => self.change_vr(random),
            11 => self.change_reserved(random),
            12 => self.change_tag(random),
            _ => {
                let count = random.between(1, 12);
                let more = random.bytes(count);
                self.bytes.extend_from_slice(&more);
            }
        }
    }

    /// A header of one of these kinds, where there is one.
    fn header(&self, random: &mut Random, kinds: &[Header]) -> Option<(usize, Header)> {
        let fitting: Vec<_> =
            self.headers.iter().copied().filter(|(_, header)| kinds.contains(header)).collect();
        (!fitting.is_empty()).then(|| random.pick(&fitting))
    }

    fn any_header(&self, random: &mut Random) -> Option<(usize, Header)> {
        (!self.headers.is_empty()).then(|| random.pick(self.headers))
    }

    /// A place from the start to the end, in or just behind a header for the
    /// most part.
    fn place(&self, random: &mut Random) -> usize {
        let end = self.bytes.len();
        match self.any_header(random) {
            Some((at, _)) if random.chance(70) => (at + random.below(13)).min(end),
            _ => random.between(0, end),
        }
    }

    /// Writes over what stands at `at`, as far as the bytes reach.
    fn set(&mut self, at: usize, bytes: &[u8]) {
        for (index, &byte) in bytes.iter().enumerate() {
            if let Some(place) = self.bytes.get_mut(at + index) {
                *place = byte;
            }
        }
    }

    fn flip_bit_anywhere(&mut self, random: &mut Random) {
        if !self.bytes.is_empty() {
            let at = random.below(self.bytes.len());
            self.bytes[at] ^= 1 << random.below(8);
        }
    }

    fn flip_bit_in_header(&mut self, random: &mut Random) {
        let at = self.place(random);
        if let Some(byte) = self.bytes.get_mut(at) {
            *byte ^= 1 << random.below(8);
        }
    }

    fn insert(&mut self, random: &mut Random) {
        let at = self.place(random);
        let count = random.pick(&[1, 2, 4, 8, 8]);
        let more = if count == 8 && random.chance(70) {
            let tag = random.pick(&STRUCTURE);
            [tag_bytes(tag), [0; 4]].concat()
        } else {
            random.bytes(count)
        };
        self.bytes.splice(at..at, more);
    }

    fn remove(&mut self, random: &mut Random) {
        let at = self.place(random);
        let end = (at + random.between(1, 8)).min(self.bytes.len());
        self.bytes.drain(at..end);
    }

    fn change_length(&mut self, random: &mut Random) {
        let Some((at, header)) = self.any_header(random) else {
            return;
        };
        let (field, size) = header.length_field();
        let Some(old) = self.bytes.get(at + field..at + field + size) else {
            return;
        };
        let old = old.iter().rev().fold(0u32, |length, &byte| length << 8 | u32::from(byte));
        let new = match random.below(9) {
            0 => old.wrapping_add(1),
            1 => old.wrapping_sub(1),
            2 => old.wrapping_add(2),
            3 => old.wrapping_sub(2),
            4 => 0,
            5 => 0xFFFF_FFFF,
            6 => 0x7FFF_FFFE,
            7 => 0xFFFF_FFFE,
            _ => 2 * random.below(64) as u32,
        };
        self.set(at + field, &new.to_le_bytes()[..size]);
    }

    fn drop_delimiter(&mut self, random: &mut Random) {
        if let Some((at, _)) = self.header(random, &[Header::Delimiter]) {
            let end = (at + 8).min(self.bytes.len());
            self.bytes.drain(at.min(end)..end);
        }
    }

    fn change_delimiter(&mut self, random: &mut Random) {
        if let Some((at, _)) = self.header(random, &[Header::Delimiter]) {
            if random.chance(50) {
                self.set(at + random.between(4, 7), &[random.between(1, 255) as u8]);
            } else {
                let tag = random.pick(&STRUCTURE);
                self.set(at, &tag_bytes(tag));
            }
        }
    }

    fn change_vr(&mut self, random: &mut Random) {
        const IN_NEITHER_LIST: [&[u8; 2]; 8] =
            [b"UC", b"UV", b"OD", b"OL", b"sq", b"ZZ", b"\0\0", b"O\0"];
        if let Some((at, _)) = self.header(random, &[Header::Short, Header::Long]) {
            let vr = match random.below(3) {
                0 => random.pick(&IN_NEITHER_LIST),
                1 => random.pick(&SHORT_FORM),
                _ => random.pick(&LONG_FORM),
            };
            self.set(at + 4, vr);
        }
    }

    fn change_reserved(&mut self, random: &mut Random) {
        if let Some((at, _)) = self.header(random, &[Header::Long]) {
            self.set(at + random.between(6, 7), &[random.between(1, 255) as u8]);
        }
    }

    fn change_tag(&mut self, random: &mut Random) {
        if let Some((at, _)) = self.any_header(random) {
            let tag = match random.below(4) {
                0 => 0xFFFE_0000 | random.below(0x1_0000) as u32,
                1 => random.pick(&STRUCTURE),
                _ => draw_tag(random, 20),
            };
            self.set(at, &tag_bytes(tag));
        }
    }
}

#[cfg(test)]
mod tests {
    use super::*;
    use crate::coding::code;
    use crate::data_sets::{draw_elements, Style};
    use independent::reading::read;

    #[test]
    fn damage_leads_to_every_fault_of_the_reading() {
        let mut occurred = [0; 9];
        for index in 0..20_000 {
            let mut random = Random::of_case(1, index);
            let style = Style::any(&mut random);
            let coded = code(&draw_elements(&mut random, style, 0));
            occurred[read(&damaged(&mut random, &coded)).answer.number as usize] += 1;
        }
        for number in [0, 2, 3, 4, 5, 6, 7] {
            assert!(occurred[number] > 50, "{number}: {occurred:?}");
        }
    }
}
