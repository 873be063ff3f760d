//! Data sets to be timed.

use crate::coding::{code, Element, Item, Value};
use crate::data_sets::filled;
use crate::signatures::EXPLICIT_VR_LITTLE_ENDIAN;
use crate::tag_lists::bytes_of;
use independent::reading::Tag;
use independent::signature_mode::{
    CERTIFICATE_OF_SIGNER, DATA_ELEMENTS_SIGNED, DIGITAL_SIGNATURES_SEQUENCE, MAC_ALGORITHM,
    MAC_CALCULATION_TRANSFER_SYNTAX_UID, MAC_ID_NUMBER, MAC_PARAMETERS_SEQUENCE, SIGNATURE,
};

/// A data set with a list, bare and with one signature over the same list.
pub struct Workload {
    pub name: &'static str,
    pub list: Vec<u8>,
    pub data: Vec<u8>,
    pub signed_data: Vec<u8>,
}

/// The UID a caller says of each workload.
pub const UID: &[u8] = EXPLICIT_VR_LITTLE_ENDIAN.as_bytes();

/// Room that is left for a signature with its parameters.
const SIGNATURE_ROOM: usize = 8_192;

/// The three workloads at `part` of `of` their full size.
pub fn workloads(part: usize, of: usize) -> [Workload; 3] {
    let size = (independent::reading::MOST_BYTES - SIGNATURE_ROOM) * part / of;
    [image(size), report(size), flat(100_000 * part / of)]
}

/// One large pixel element and 20 small elements, all listed.
fn image(size: usize) -> Workload {
    let small = (0..20)
        .map(|index| Element::text(0x0028_0002 + 2 * index, b"LO", "sixteen letters.", b' '))
        .collect();
    workload("image", filled(small, size - size % 2), 1)
}

/// A structured report: content items in content items, all listed.
fn report(size: usize) -> Workload {
    let branch = content(3);
    let once = code(&[Element::sequence(0, vec![branch.clone()], true)]).bytes.len() - 20;
    let items = vec![branch; (size - 200) / once];
    let elements = vec![
        Element::text(0x0008_0060, b"CS", "SR", b' '),
        Element::text(0x0010_0010, b"PN", "Lid^A", b' '),
        Element::text(0x0040_A040, b"CS", "CONTAINER", b' '),
        Element::sequence(0x0040_A730, items, true),
    ];
    workload("report", elements, 1)
}

/// A content item with a coded name, a text and four content items inside,
/// `levels` deep. Lengths are defined and undefined in turn.
fn content(levels: usize) -> Item {
    let undefined = levels % 2 == 1;
    let name = Item {
        elements: vec![
            Element::text(0x0008_0100, b"SH", "121071", b' '),
            Element::text(0x0008_0102, b"SH", "DCM", b' '),
            Element::text(0x0008_0104, b"LO", "Finding", b' '),
        ],
        undefined,
    };
    let mut elements = vec![
        Element::text(0x0040_A010, b"CS", "CONTAINS", b' '),
        Element::text(0x0040_A040, b"CS", "TEXT", b' '),
        Element::sequence(0x0040_A043, vec![name], undefined),
        Element::text(0x0040_A160, b"UT", "No change.", b' '),
    ];
    if levels > 0 {
        elements.push(Element::sequence(0x0040_A730, vec![content(levels - 1); 4], undefined));
    }
    Item { elements, undefined }
}

/// `count` small top-level elements, every hundredth listed.
fn flat(count: usize) -> Workload {
    const PER_GROUP: usize = 10_000;
    let elements = (0..count)
        .map(|index| {
            let (group, number) = (0x0011 + 2 * (index / PER_GROUP), 0x1000 + index % PER_GROUP);
            Element {
                tag: (group << 16 | number) as u32,
                vr: *b"US",
                value: Value::Bytes((index as u16).to_le_bytes().to_vec()),
            }
        })
        .collect();
    workload("flat", elements, 100)
}

/// Lists every element whose index is a multiple of `every`.
fn workload(name: &'static str, mut elements: Vec<Element>, every: usize) -> Workload {
    let tags: Vec<u32> = elements.iter().step_by(every).map(|element| element.tag).collect();
    let list = bytes_of(&tags);
    let data = code(&elements).bytes;
    elements.insert(
        elements.partition_point(|element| element.tag < MAC_PARAMETERS_SEQUENCE.0),
        one_item(
            MAC_PARAMETERS_SEQUENCE,
            vec![
                Element::bytes(MAC_ID_NUMBER.0, b"US", &[0, 0]),
                Element::text(
                    MAC_CALCULATION_TRANSFER_SYNTAX_UID.0,
                    b"UI",
                    EXPLICIT_VR_LITTLE_ENDIAN,
                    0,
                ),
                Element::text(MAC_ALGORITHM.0, b"CS", "SHA256", b' '),
                Element::bytes(DATA_ELEMENTS_SIGNED.0, b"AT", &list),
            ],
        ),
    );
    elements.push(one_item(
        DIGITAL_SIGNATURES_SEQUENCE,
        vec![
            Element::bytes(MAC_ID_NUMBER.0, b"US", &[0, 0]),
            Element::text(0x0400_0100, b"UI", "1.2.276.0.7230010.3.0", 0),
            Element::text(0x0400_0105, b"DT", "20240229120000.000000+0100", b' '),
            Element::text(0x0400_0110, b"CS", "X509_1993_SIG", b' '),
            Element::bytes(CERTIFICATE_OF_SIGNER.0, b"OB", &[0x30; 900]),
            Element::bytes(SIGNATURE.0, b"OB", &[0x5A; 256]),
        ],
    ));
    Workload { name, list, data, signed_data: code(&elements).bytes }
}

fn one_item(tag: Tag, elements: Vec<Element>) -> Element {
    Element::sequence(tag.0, vec![Item { elements, undefined: false }], false)
}

#[cfg(test)]
mod tests {
    use super::*;
    use independent::reading::MOST_BYTES;
    use independent::{list_mode, signature_mode};

    #[test]
    fn all_are_accepted_and_of_the_size_said() {
        for (part, of) in [(1, 1), (1, 2)] {
            for workload in workloads(part, of) {
                let Workload { name, list, data, signed_data } = workload;
                let full = MOST_BYTES * part / of;
                assert!(data.len() > full * 9 / 10 && signed_data.len() <= full, "{name}");
                let bare = list_mode::stream(&data, &list, MOST_BYTES);
                let signed = signature_mode::stream(&signed_data, UID, None, MOST_BYTES);
                assert_eq!((bare.answer.number, signed.answer.number), (0, 0), "{name}");
                assert!(signed.stream.unwrap().starts_with(&bare.stream.unwrap()), "{name}");
            }
        }
    }
}
