//! The data set of a DICOM file (PS3.10): 128 bytes of preamble, "DICM", the
//! file meta information (group 0002, Explicit VR Little Endian), data set.

use std::fmt;

const PREAMBLE: usize = 128;
const PREFIX: &[u8] = b"DICM";
const META_GROUP: [u8; 2] = [0x02, 0x00];
const TRANSFER_SYNTAX_UID: [u8; 2] = [0x10, 0x00];

/// The VRs with a four-byte length in PS3.5 as it is now. They are not the six of
/// `independent::reading::LONG_FORM`: those are RULES 2.7's, and the others are
/// refused (2.11d), but file meta information may hold them, as UR in (0002,0026).
const LONG_FORM: [&[u8; 2]; 13] = [
    b"OB", b"OD", b"OF", b"OL", b"OV", b"OW", b"SQ", b"SV", b"UC", b"UN", b"UR", b"UT", b"UV",
];

/// A file's data set and its transfer syntax.
#[derive(Debug, PartialEq, Eq)]
pub struct File<'f> {
    pub transfer_syntax: &'f str,
    /// Where the data set starts in the file.
    pub offset: usize,
    pub data: &'f [u8],
}

/// Why a file is passed over.
#[derive(Debug, PartialEq, Eq)]
pub enum NotRead<'f> {
    NoPrefix,
    BrokenMeta { offset: usize },
    NoTransferSyntax,
    OtherTransferSyntax(&'f str),
}

impl fmt::Display for NotRead<'_> {
    fn fmt(&self, out: &mut fmt::Formatter) -> fmt::Result {
        match self {
            NotRead::NoPrefix => write!(out, "no DICOM file: DICM does not stand at byte 128"),
            NotRead::BrokenMeta { offset } => {
                write!(out, "the file meta information breaks off at byte {offset}")
            }
            NotRead::NoTransferSyntax => write!(out, "the file names no transfer syntax"),
            NotRead::OtherTransferSyntax(uid) => {
                write!(out, "transfer syntax {uid} is not in Explicit VR Little Endian")
            }
        }
    }
}

/// Reads a file's meta information and finds its data set.
pub fn read(file: &[u8]) -> Result<File<'_>, NotRead<'_>> {
    let start = PREAMBLE + PREFIX.len();
    if file.get(PREAMBLE..start) != Some(PREFIX) {
        return Err(NotRead::NoPrefix);
    }
    let mut offset = start;
    let mut transfer_syntax = None;
    while file.get(offset..offset + 2) == Some(&META_GROUP[..]) {
        let broken = NotRead::BrokenMeta { offset };
        let (number, value, next) = meta_element(file, offset).ok_or(broken)?;
        if number == TRANSFER_SYNTAX_UID {
            transfer_syntax = Some(value.strip_suffix(b"\0").unwrap_or(value));
        }
        offset = next;
    }
    let transfer_syntax = transfer_syntax
        .and_then(|value| std::str::from_utf8(value).ok())
        .ok_or(NotRead::NoTransferSyntax)?;
    if !is_explicit_little_endian(transfer_syntax) {
        return Err(NotRead::OtherTransferSyntax(transfer_syntax));
    }
    Ok(File { transfer_syntax, offset, data: &file[offset..] })
}

/// Element number, value and end of the element at `offset`.
fn meta_element(file: &[u8], offset: usize) -> Option<([u8; 2], &[u8], usize)> {
    let header = file.get(offset..offset + 8)?;
    let long = LONG_FORM.iter().any(|vr| header[4..6] == vr[..]);
    let (start, length) = if long {
        let field = file.get(offset + 8..offset + 12)?;
        (offset + 12, u32::from_le_bytes(field.try_into().ok()?) as usize)
    } else {
        (offset + 8, usize::from(u16::from_le_bytes([header[6], header[7]])))
    };
    let end = start.checked_add(length)?;
    Some(([header[2], header[3]], file.get(start..end)?, end))
}

/// Explicit VR Little Endian, and the encapsulated transfer syntaxes, whose
/// elements are coded alike; those with a deflated data set are not.
fn is_explicit_little_endian(uid: &str) -> bool {
    const ROOT: &str = "1.2.840.10008.1.2.";
    const DEFLATED: [&str; 2] = ["4.95", "4.205"];
    let Some(rest) = uid.strip_prefix(ROOT) else {
        return false;
    };
    let encapsulated = ["4.", "6.", "8."].iter().any(|family| rest.starts_with(family));
    (rest == "1" || rest == "5" || encapsulated) && !DEFLATED.contains(&rest)
}

#[cfg(test)]
mod tests {
    use super::*;
    use crate::coding::{code, Element};

    fn file(meta: &[Element], data: &[u8]) -> Vec<u8> {
        [vec![0; PREAMBLE], PREFIX.to_vec(), code(meta).bytes, data.to_vec()].concat()
    }

    fn meta(uid: &str) -> Vec<Element> {
        vec![
            Element::bytes(0x0002_0000, b"UL", &[0, 0, 0, 0]),
            Element::bytes(0x0002_0001, b"OB", &[0, 1]),
            Element::text(0x0002_0010, b"UI", uid, 0),
            Element::text(0x0002_0013, b"SH", "ANY", b' '),
        ]
    }

    #[test]
    fn the_data_set_follows_the_meta_information() {
        let data = [0x08, 0, 0x60, 0, b'C', b'S', 2, 0, b'C', b'T'];
        for uid in ["1.2.840.10008.1.2.1", "1.2.840.10008.1.2.5", "1.2.840.10008.1.2.4.90"] {
            let file = file(&meta(uid), &data);
            let read = read(&file).unwrap();
            assert_eq!((read.transfer_syntax, read.data), (uid, &data[..]));
            assert_eq!(read.offset + data.len(), file.len());
        }
        assert_eq!(read(&file(&meta("1.2.840.10008.1.2.1"), &[])).unwrap().data, &[]);
    }

    #[test]
    fn meta_information_with_a_vr_that_the_rules_refuse() {
        let presentation_address = b"\x02\0\x26\0UR\0\0\x04\0\0\0host";
        let data = [0x08, 0, 0x60, 0, b'C', b'S', 0, 0];
        let behind = [&presentation_address[..], &data].concat();
        let file = file(&meta("1.2.840.10008.1.2.1"), &behind);
        assert_eq!(read(&file).unwrap().data, &data);
    }

    #[test]
    fn other_transfer_syntaxes_are_named() {
        for uid in [
            "1.2.840.10008.1.2", "1.2.840.10008.1.2.2", "1.2.840.10008.1.2.1.99",
            "1.2.840.10008.1.2.4.95", "1.2.840.10008.1.2.50", "1.2.3",
        ] {
            assert_eq!(read(&file(&meta(uid), &[])), Err(NotRead::OtherTransferSyntax(uid)));
        }
    }

    #[test]
    fn broken_files() {
        assert_eq!(read(b""), Err(NotRead::NoPrefix));
        assert_eq!(read(&[0; 200]), Err(NotRead::NoPrefix));
        assert_eq!(read(&file(&[], &[])), Err(NotRead::NoTransferSyntax));
        let whole = file(&meta("1.2.840.10008.1.2.1"), &[]);
        assert_eq!(read(&whole[..140]), Err(NotRead::BrokenMeta { offset: 132 }));
        for end in 133..whole.len() {
            match read(&whole[..end]) {
                Err(NotRead::BrokenMeta { offset }) => assert!(offset < end),
                Err(NotRead::NoTransferSyntax) => assert!(end < 190),
                Ok(file) => assert!(file.data.len() < 2),
                other => panic!("{other:?} at {end}"),
            }
        }
    }
}
