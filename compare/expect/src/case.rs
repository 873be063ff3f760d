//! One case of a case file: a call and what is handed to it.

use crate::spelling::{
    read_bytes, read_decimal, read_left, read_tag, read_which, write_bytes, write_hex, write_tag,
    write_which,
};
use independent::reading::Tag;
use independent::sha256::RunningDigest;

/// EXPECTED of a check.
#[derive(Clone, Debug, PartialEq, Eq)]
pub enum Expected {
    Bytes(Vec<u8>),
    /// `sha256`: the right digest of the stream, 32 zero bytes if there is no
    /// stream.
    RightDigest,
}

#[derive(Clone, Debug, PartialEq, Eq)]
pub enum Case {
    Read { data: Vec<u8> },
    /// The first element of a data set that may have `left` levels of sequences.
    One { left: u32, data: Vec<u8> },
    Lookup { tag: Tag, data: Vec<u8> },
    List { room: usize, list: Vec<u8>, data: Vec<u8> },
    ListCheck { room: usize, expected: Expected, list: Vec<u8>, data: Vec<u8> },
    Signature { room: usize, uid: Vec<u8>, which: Option<usize>, data: Vec<u8> },
    SignatureCheck {
        room: usize,
        expected: Expected,
        uid: Vec<u8>,
        which: Option<usize>,
        data: Vec<u8>,
    },
    ListMeasure { list: Vec<u8>, data: Vec<u8> },
    SignatureMeasure { uid: Vec<u8>, which: Option<usize>, data: Vec<u8> },
    Frame { input: Vec<u8> },
    /// A digest fed in parts from the start.
    Digest { parts: Vec<Vec<u8>> },
    /// One feeding of any running digest, possible or not.
    Feed { state: RunningDigest, bytes: Vec<u8> },
    /// The finishing of any running digest.
    Finish { state: RunningDigest },
}

impl Case {
    /// The case in the fields behind the name, or `None` where they are not
    /// understood.
    pub fn read(fields: &[&[u8]]) -> Option<Case> {
        let (&kind, arguments) = fields.split_first()?;
        match (kind, arguments) {
            (b"read", &[data]) => Some(Case::Read { data: read_bytes(data)? }),
            (b"one", &[left, data]) => {
                Some(Case::One { left: read_left(left)?, data: read_bytes(data)? })
            }
            (b"lookup", &[tag, data]) => {
                Some(Case::Lookup { tag: read_tag(tag)?, data: read_bytes(data)? })
            }
            (b"frame", &[input]) => Some(Case::Frame { input: read_bytes(input)? }),
            (b"digest" | b"feed" | b"finish", _) => Case::read_digest(kind, arguments),
            _ => Case::read_mode(kind, arguments),
        }
    }

    /// A case of list mode or signature mode.
    fn read_mode(kind: &[u8], arguments: &[&[u8]]) -> Option<Case> {
        Some(match (kind, arguments) {
            (b"list", &[room, list, data]) => Case::List {
                room: read_decimal(room)?,
                list: read_bytes(list)?,
                data: read_bytes(data)?,
            },
            (b"list-check", &[room, expected, list, data]) => Case::ListCheck {
                room: read_decimal(room)?,
                expected: read_expected(expected)?,
                list: read_bytes(list)?,
                data: read_bytes(data)?,
            },
            (b"signature", &[room, uid, which, data]) => Case::Signature {
                room: read_decimal(room)?,
                uid: read_bytes(uid)?,
                which: read_which(which)?,
                data: read_bytes(data)?,
            },
            (b"signature-check", &[room, expected, uid, which, data]) => Case::SignatureCheck {
                room: read_decimal(room)?,
                expected: read_expected(expected)?,
                uid: read_bytes(uid)?,
                which: read_which(which)?,
                data: read_bytes(data)?,
            },
            (b"list-measure", &[list, data]) => {
                Case::ListMeasure { list: read_bytes(list)?, data: read_bytes(data)? }
            }
            (b"signature-measure", &[uid, which, data]) => Case::SignatureMeasure {
                uid: read_bytes(uid)?,
                which: read_which(which)?,
                data: read_bytes(data)?,
            },
            _ => return None,
        })
    }

    /// A case of the digest or the running digest.
    fn read_digest(kind: &[u8], arguments: &[&[u8]]) -> Option<Case> {
        Some(match (kind, arguments) {
            (b"digest", parts) if !parts.is_empty() => Case::Digest {
                parts: parts.iter().map(|part| read_bytes(part)).collect::<Option<_>>()?,
            },
            (b"feed", &[words, waiting, count, total, bytes]) => Case::Feed {
                state: read_state(words, waiting, count, total)?,
                bytes: read_bytes(bytes)?,
            },
            (b"finish", &[words, waiting, count, total]) => {
                Case::Finish { state: read_state(words, waiting, count, total)? }
            }
            _ => return None,
        })
    }

    /// The case as a line of a case file, without the newline.
    pub fn write(&self, name: &str) -> String {
        let fields = match self {
            Case::Read { data } => format!("read {}", write_bytes(data)),
            Case::One { left, data } => format!("one {left} {}", write_bytes(data)),
            Case::Lookup { tag, data } => {
                format!("lookup {} {}", write_tag(*tag), write_bytes(data))
            }
            Case::Frame { input } => format!("frame {}", write_bytes(input)),
            Case::Digest { parts } => {
                let parts: Vec<String> = parts.iter().map(|part| write_bytes(part)).collect();
                format!("digest {}", parts.join(" "))
            }
            Case::Feed { state, bytes } => {
                format!("feed {} {}", write_state(state), write_bytes(bytes))
            }
            Case::Finish { state } => format!("finish {}", write_state(state)),
            _ => self.write_mode(),
        };
        format!("{name} {fields}")
    }

    /// The fields of a case of list mode or signature mode.
    fn write_mode(&self) -> String {
        match self {
            Case::List { room, list, data } => {
                format!("list {room} {} {}", write_bytes(list), write_bytes(data))
            }
            Case::ListCheck { room, expected, list, data } => format!(
                "list-check {room} {} {} {}",
                write_expected(expected),
                write_bytes(list),
                write_bytes(data)
            ),
            Case::Signature { room, uid, which, data } => format!(
                "signature {room} {} {} {}",
                write_bytes(uid),
                write_which(*which),
                write_bytes(data)
            ),
            Case::SignatureCheck { room, expected, uid, which, data } => format!(
                "signature-check {room} {} {} {} {}",
                write_expected(expected),
                write_bytes(uid),
                write_which(*which),
                write_bytes(data)
            ),
            Case::ListMeasure { list, data } => {
                format!("list-measure {} {}", write_bytes(list), write_bytes(data))
            }
            Case::SignatureMeasure { uid, which, data } => format!(
                "signature-measure {} {} {}",
                write_bytes(uid),
                write_which(*which),
                write_bytes(data)
            ),
            _ => unreachable!("of no mode"),
        }
    }
}

fn read_expected(field: &[u8]) -> Option<Expected> {
    if field == b"sha256" {
        return Some(Expected::RightDigest);
    }
    read_bytes(field).map(Expected::Bytes)
}

fn write_expected(expected: &Expected) -> String {
    match expected {
        Expected::Bytes(bytes) => write_bytes(bytes),
        Expected::RightDigest => "sha256".to_string(),
    }
}

/// WORDS WAITING COUNT TOTAL: 32 bytes, high byte of a word first; 64 bytes;
/// two decimal numbers.
fn read_state(words: &[u8], waiting: &[u8], count: &[u8], total: &[u8]) -> Option<RunningDigest> {
    let words: [u8; 32] = read_bytes(words)?.try_into().ok()?;
    Some(RunningDigest {
        words: std::array::from_fn(|word| {
            u32::from_be_bytes(std::array::from_fn(|byte| words[4 * word + byte]))
        }),
        waiting: read_bytes(waiting)?.try_into().ok()?,
        count: read_decimal(count)?,
        total: read_decimal(total)? as u64,
    })
}

/// The four fields of a running digest, in hex pairs throughout.
pub(crate) fn write_state(state: &RunningDigest) -> String {
    let words: Vec<u8> = state.words.iter().flat_map(|word| word.to_be_bytes()).collect();
    format!("{} {} {} {}", write_hex(&words), write_hex(&state.waiting), state.count, state.total)
}

#[cfg(test)]
mod tests {
    use super::*;

    #[test]
    fn what_is_written_reads_back() {
        let (data, list, uid) = (vec![1, 2, 3], vec![8, 0, 0x60, 0], b"1.2".to_vec());
        let state = RunningDigest { count: 70, total: u64::MAX, ..RunningDigest::start() };
        let bytes = Expected::Bytes(vec![0; 31]);
        let cases = [
            Case::Read { data: data.clone() },
            Case::One { left: 0, data: data.clone() },
            Case::One { left: u32::MAX, data: vec![] },
            Case::Lookup { tag: Tag::new(8, 0x60), data: data.clone() },
            Case::List { room: 7, list: list.clone(), data: data.clone() },
            Case::ListCheck { room: 0, expected: bytes.clone(), list, data: data.clone() },
            Case::Signature { room: 7, uid: uid.clone(), which: None, data: data.clone() },
            Case::SignatureCheck {
                room: 7,
                expected: Expected::RightDigest,
                uid,
                which: Some(usize::MAX),
                data: vec![],
            },
            Case::ListMeasure { list: vec![], data: data.clone() },
            Case::SignatureMeasure { uid: vec![], which: Some(1), data: data.clone() },
            Case::Frame { input: data.clone() },
            Case::Digest { parts: vec![data.clone(), vec![], vec![9; 70]] },
            Case::Feed { state, bytes: data },
            Case::Finish { state },
        ];
        for case in cases {
            let line = case.write("name");
            let fields: Vec<&[u8]> = line.as_bytes().split(|&byte| byte == b' ').collect();
            assert_eq!(Case::read(&fields[1..]), Some(case), "{line}");
        }
    }
}
