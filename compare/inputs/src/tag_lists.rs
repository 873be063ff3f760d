//! Random tag lists for a data set: good ones, and each way to be refused.

use crate::coding::{tag_bytes, Element};
use crate::data_sets::{draw_tag, BARRED};
use crate::random::Random;
use independent::reading::Tag;
use independent::tag_list::{is_barred, MOST_TAGS};

/// A list for a data set of these top-level elements.
pub fn tag_list(random: &mut Random, elements: &[Element]) -> Vec<u8> {
    let unknown_too = random.chance(25);
    let candidates: Vec<u32> = elements
        .iter()
        .filter(|element| !is_barred(Tag(element.tag)))
        .filter(|element| unknown_too || !element.is_or_holds_unknown())
        .map(|element| element.tag)
        .collect();
    let share = random.pick(&[100, 20, 70, 70]);
    let mut tags = candidates.clone();
    tags.retain(|_| random.chance(share));
    tags.truncate(MOST_TAGS);
    if tags.is_empty() && !candidates.is_empty() {
        tags.push(random.pick(&candidates));
    }
    let mut bytes = if random.chance(70) { bytes_of(&tags) } else { spoiled(random, tags) };
    if random.chance(3) {
        bytes.truncate(bytes.len().saturating_sub(random.between(1, 3)));
    }
    bytes
}

/// The tags with something that is, or may be, refused.
fn spoiled(random: &mut Random, mut tags: Vec<u32>) -> Vec<u8> {
    match random.below(9) {
        0 => tags.clear(),
        1 => {
            let count = random.between(MOST_TAGS, MOST_TAGS + 1);
            fill_up(&mut tags, count);
        }
        2 | 3 => insert_in_order(&mut tags, random.pick(&BARRED)),
        4 => insert_in_order(&mut tags, random.pick(&[0xFFFE_0000, 0xFFFE_E00D, 0xFFFE_E0DD])),
        5 => insert_in_order(&mut tags, draw_tag(random, 0)),
        6 => {
            if let Some(&tag) = tags.last() {
                tags.push(tag);
            }
        }
        _ => {
            if tags.len() > 1 {
                let (one, other) = (random.below(tags.len()), random.below(tags.len()));
                tags.swap(one, other);
            }
        }
    }
    if random.chance(15) {
        insert_in_order(&mut tags, random.pick(&BARRED));
    }
    if random.chance(15) && !tags.is_empty() {
        let at = random.below(tags.len());
        tags.insert(at, random.pick(&BARRED));
    }
    bytes_of(&tags)
}

fn insert_in_order(tags: &mut Vec<u32>, tag: u32) {
    let at = tags.partition_point(|&other| other < tag);
    if tags.get(at) != Some(&tag) {
        tags.insert(at, tag);
    }
}

/// Appends tags behind the last one until there are `count`.
fn fill_up(tags: &mut Vec<u32>, count: usize) {
    let mut tag = tags.last().map_or(0x0021_1000, |&tag| tag);
    while tags.len() < count && tag < u32::MAX {
        tag += 1;
        tags.push(tag);
    }
}

pub fn bytes_of(tags: &[u32]) -> Vec<u8> {
    tags.iter().flat_map(|&tag| tag_bytes(tag)).collect()
}

#[cfg(test)]
mod tests {
    use super::*;
    use crate::data_sets::{draw_elements, wide, Style};
    use independent::tag_list::read_list;

    #[test]
    fn good_and_refused_lists_occur() {
        let mut occurred = [0; 13];
        for index in 0..5_000 {
            let mut random = Random::of_case(1, index);
            let style = Style::any(&mut random);
            let elements = draw_elements(&mut random, style, 0);
            occurred[read_list(&tag_list(&mut random, &elements)).answer.number as usize] += 1;
        }
        for number in [0, 10, 11, 12] {
            assert!(occurred[number] > 100, "{number}: {occurred:?}");
        }
    }

    #[test]
    fn the_largest_lists_occur() {
        let mut lengths = Vec::new();
        for index in 0..500 {
            let mut random = Random::of_case(2, index);
            let elements = wide(&mut random);
            lengths.push(tag_list(&mut random, &elements).len());
        }
        assert!(lengths.contains(&(4 * MOST_TAGS)));
        assert!(lengths.contains(&(4 * MOST_TAGS + 4)));
    }
}
