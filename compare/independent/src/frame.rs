//! Section 11, "The stream program": its input bytes to the bytes it prints.

use crate::list_mode;
use crate::{Answer, Streamed};

/// 11.1: "Its standard input is a frame of at most 65,536 bytes".
pub const MOST_INPUT: usize = 65_536;

/// 11.2: "Its call is one of list mode; the output room is 65,536 bytes."
pub const OUTPUT_ROOM: usize = 65_536;

/// The program's answer and what it prints.
#[derive(Clone, Debug, PartialEq, Eq)]
pub struct Printed {
    pub answer: Answer,
    pub text: Vec<u8>,
}

/// What the stream program prints for `input`.
pub fn run(input: &[u8]) -> Printed {
    let Streamed { answer, stream } = match parts(input) {
        Some((list, data)) => list_mode::stream(data, list, OUTPUT_ROOM),
        // 11.1: "Any other input gives 24, before every other number."
        None => Streamed::from_result(Err(Answer::refused(24))),
    };
    // 11.3: "It prints number, position and length in decimal, with one space
    // between"
    let mut text = format!("{answer}\n").into_bytes();
    // 11.3: "then, for number 0, the stream in hex, in lower case, 32 bytes a line"
    if let Some(stream) = stream {
        for line in stream.chunks(32) {
            for byte in line {
                text.extend_from_slice(format!("{byte:02x}").as_bytes());
            }
            text.push(b'\n');
        }
    }
    Printed { answer, text }
}

/// 11.1: "the byte 1 for the version; a length in bytes, itself four bytes with the
/// high byte first, and a list of that length; a length likewise, and a data set of
/// that length; and no byte more". Gives the list and the data set.
fn parts(input: &[u8]) -> Option<(&[u8], &[u8])> {
    if input.len() > MOST_INPUT {
        return None;
    }
    let (&version, rest) = input.split_first()?;
    if version != 1 {
        return None;
    }
    let (list, rest) = counted(rest)?;
    let (data, rest) = counted(rest)?;
    rest.is_empty().then_some((list, data))
}

/// A length of four bytes, the high byte first, that many bytes, and the rest.
fn counted(bytes: &[u8]) -> Option<(&[u8], &[u8])> {
    if bytes.len() < 4 {
        return None;
    }
    let (length, rest) = bytes.split_at(4);
    let length = u32::from_be_bytes([length[0], length[1], length[2], length[3]]) as usize;
    (length <= rest.len()).then(|| rest.split_at(length))
}
