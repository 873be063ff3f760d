//! Random frames for the stream program, good and bad.

use crate::cases::list_and_data;
use crate::coding::code;
use crate::data_sets::{draw_elements, filled, Style};
use crate::random::Random;
use crate::tag_lists::bytes_of;
use independent::frame::MOST_INPUT;

/// Frame number `index` of the run with this seed.
pub fn frame(seed: u64, index: u64) -> Vec<u8> {
    let random = &mut Random::of_case(seed, index);
    let mut input = if random.chance(2) {
        largest(random)
    } else {
        let (list, data) = list_and_data(random);
        framed(&list, &data)
    };
    if random.chance(35) {
        make_bad(random, &mut input);
    }
    input
}

fn framed(list: &[u8], data: &[u8]) -> Vec<u8> {
    let counted = |bytes: &[u8]| [&(bytes.len() as u32).to_be_bytes(), bytes].concat();
    [vec![1], counted(list), counted(data)].concat()
}

/// A frame of as many bytes as are taken, sometimes one or two more.
fn largest(random: &mut Random) -> Vec<u8> {
    let style = Style { unknown: 0, barred: 0, sequences: 20, fragments: 10 };
    let mut elements = draw_elements(random, style, 0);
    elements = filled(elements, 60_000);
    let list = bytes_of(&elements.iter().map(|element| element.tag).collect::<Vec<_>>());
    // 9 bytes for the version and two lengths: the data set's length is odd.
    let room = MOST_INPUT - 9 - list.len();
    let mut input = framed(&list, &code(&filled(elements, room - room % 2)).bytes);
    input.resize(input.len() + random.below(3), 0);
    input
}

/// Makes a frame bad: changes the version, a length, or the end.
fn make_bad(random: &mut Random, input: &mut Vec<u8>) {
    match random.below(6) {
        0 => input[0] = random.pick(&[0, 2, 255]),
        1 => {
            let at = random.between(1, 4);
            input[at] ^= 1 << random.below(8);
        }
        2 => {
            let list = u32::from_be_bytes([input[1], input[2], input[3], input[4]]) as usize;
            let at = 5 + list + random.below(4);
            input[at] ^= 1 << random.below(8);
        }
        3 => input.push(random.byte()),
        4 => input.truncate(random.below(input.len())),
        _ => input.truncate(random.below(10)),
    }
}

#[cfg(test)]
mod tests {
    use super::*;

    #[test]
    fn good_and_bad_frames_occur() {
        let run = |index| independent::frame::run(&frame(1, index));
        let numbers: Vec<u64> = (0..3_000).map(|index| run(index).answer.number).collect();
        for number in [0, 2, 3, 4, 5, 7, 8, 10, 11, 12, 13, 24] {
            assert!(numbers.contains(&number), "{number}");
        }
    }

    #[test]
    fn the_largest_frames_are_about_the_limit() {
        let sizes: Vec<usize> =
            (0..50).map(|index| largest(&mut Random::of_case(1, index)).len()).collect();
        assert!(sizes.contains(&(MOST_INPUT - 1)) && sizes.contains(&(MOST_INPUT + 1)));
        assert!(sizes.contains(&MOST_INPUT));
    }
}
