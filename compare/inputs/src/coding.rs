//! Data sets as trees, and their coding in Explicit VR Little Endian. The
//! trees may be anything: what is coded need not be well-formed.

use independent::reading::{Tag, ITEM, ITEM_DELIMITATION, LONG_FORM, SEQUENCE_DELIMITATION};
use std::ops::Range;

const UNDEFINED: u32 = 0xFFFF_FFFF;

#[derive(Clone, Debug, PartialEq, Eq)]
pub struct Element {
    pub tag: u32,
    pub vr: [u8; 2],
    pub value: Value,
}

#[derive(Clone, Debug, PartialEq, Eq)]
pub enum Value {
    Bytes(Vec<u8>),
    /// A sequence; `undefined` says how its length is coded.
    Items { items: Vec<Item>, undefined: bool },
    /// Encapsulated pixel data, always of undefined length.
    Fragments(Vec<Vec<u8>>),
}

#[derive(Clone, Debug, PartialEq, Eq)]
pub struct Item {
    pub elements: Vec<Element>,
    pub undefined: bool,
}

impl Element {
    pub fn bytes(tag: u32, vr: &[u8; 2], value: &[u8]) -> Element {
        Element { tag, vr: *vr, value: Value::Bytes(value.to_vec()) }
    }

    /// Text, padded to even length with `padding`.
    pub fn text(tag: u32, vr: &[u8; 2], text: &str, padding: u8) -> Element {
        let mut value = text.as_bytes().to_vec();
        if value.len() % 2 == 1 {
            value.push(padding);
        }
        Element { tag, vr: *vr, value: Value::Bytes(value) }
    }

    pub fn sequence(tag: u32, items: Vec<Item>, undefined: bool) -> Element {
        Element { tag, vr: *b"SQ", value: Value::Items { items, undefined } }
    }

    pub fn fragments(tag: u32, fragments: Vec<Vec<u8>>) -> Element {
        Element { tag, vr: *b"OB", value: Value::Fragments(fragments) }
    }

    /// A UN, or a sequence with a UN in it, however deep.
    pub fn is_or_holds_unknown(&self) -> bool {
        let inside = match &self.value {
            Value::Items { items, .. } => {
                items.iter().flat_map(|item| &item.elements).any(Element::is_or_holds_unknown)
            }
            Value::Bytes(_) | Value::Fragments(_) => false,
        };
        inside || self.vr == *b"UN"
    }
}

/// A tag's four bytes.
pub fn tag_bytes(tag: u32) -> [u8; 4] {
    let ([a, b], [c, d]) = (((tag >> 16) as u16).to_le_bytes(), (tag as u16).to_le_bytes());
    [a, b, c, d]
}

/// Which header starts at a place of a coded data set.
#[derive(Clone, Copy, Debug, PartialEq, Eq)]
pub enum Header {
    /// An element with a two-byte length.
    Short,
    /// An element with a four-byte length.
    Long,
    Item,
    Delimiter,
}

impl Header {
    /// Where the length stands in the header, and its size.
    pub fn length_field(self) -> (usize, usize) {
        match self {
            Header::Short => (6, 2),
            Header::Long => (8, 4),
            Header::Item | Header::Delimiter => (4, 4),
        }
    }
}

/// A coded data set and where its headers start, in order.
#[derive(Clone, Debug, Default, PartialEq, Eq)]
pub struct Coded {
    pub bytes: Vec<u8>,
    pub headers: Vec<(usize, Header)>,
}

/// The coding of a data set.
pub fn code(elements: &[Element]) -> Coded {
    let mut coded = Coded::default();
    for element in elements {
        coded.element(element);
    }
    coded
}

impl Coded {
    fn element(&mut self, element: &Element) {
        let length = self.element_header(element);
        match &element.value {
            Value::Bytes(bytes) => {
                self.bytes.extend_from_slice(bytes);
                self.define(length);
            }
            Value::Items { items, undefined } => {
                for item in items {
                    self.item(item);
                }
                self.end(*undefined, SEQUENCE_DELIMITATION, length);
            }
            Value::Fragments(fragments) => {
                for fragment in fragments {
                    self.fragment(fragment);
                }
                self.delimiter(SEQUENCE_DELIMITATION);
            }
        }
    }

    /// An element's header; gives its length field, undefined as yet.
    fn element_header(&mut self, element: &Element) -> Range<usize> {
        let header = if LONG_FORM.contains(&&element.vr) { Header::Long } else { Header::Short };
        self.start(Tag(element.tag), header);
        self.bytes.extend_from_slice(&element.vr);
        if header == Header::Long {
            self.bytes.extend_from_slice(&[0, 0]);
        }
        let (_, size) = header.length_field();
        self.undefined_length(size)
    }

    fn item(&mut self, item: &Item) {
        self.start(ITEM, Header::Item);
        let length = self.undefined_length(4);
        for element in &item.elements {
            self.element(element);
        }
        self.end(item.undefined, ITEM_DELIMITATION, length);
    }

    fn fragment(&mut self, fragment: &[u8]) {
        self.start(ITEM, Header::Item);
        let length = self.undefined_length(4);
        self.bytes.extend_from_slice(fragment);
        self.define(length);
    }

    /// Ends a sequence or an item: by a delimiter, or by setting its length.
    fn end(&mut self, undefined: bool, delimiter: Tag, length: Range<usize>) {
        if undefined {
            self.delimiter(delimiter);
        } else {
            self.define(length);
        }
    }

    fn delimiter(&mut self, tag: Tag) {
        self.start(tag, Header::Delimiter);
        self.bytes.extend_from_slice(&[0; 4]);
    }

    /// Notes a header's start and writes its tag.
    fn start(&mut self, tag: Tag, header: Header) {
        self.headers.push((self.bytes.len(), header));
        self.bytes.extend_from_slice(&tag_bytes(tag.0));
    }

    /// Writes a length field of FFFF or FFFFFFFF; gives where it stands.
    fn undefined_length(&mut self, size: usize) -> Range<usize> {
        let start = self.bytes.len();
        self.bytes.extend_from_slice(&UNDEFINED.to_le_bytes()[..size]);
        start..start + size
    }

    /// Sets a length field to what was written behind it.
    fn define(&mut self, field: Range<usize>) {
        let (size, length) = (field.len(), (self.bytes.len() - field.end) as u32);
        self.bytes[field].copy_from_slice(&length.to_le_bytes()[..size]);
    }
}

#[cfg(test)]
mod tests {
    use super::*;

    fn item(elements: Vec<Element>, undefined: bool) -> Item {
        Item { elements, undefined }
    }

    #[test]
    fn the_examples_of_the_rules() {
        let inner = Element::bytes(0x0008_0100, b"SH", b"A1");
        let defined = Element::sequence(0x0040_A730, vec![item(vec![inner.clone()], false)], false);
        let mut bytes = vec![0x40, 0, 0x30, 0xA7, b'S', b'Q', 0, 0, 0x12, 0, 0, 0];
        bytes.extend_from_slice(&[0xFE, 0xFF, 0x00, 0xE0, 0x0A, 0, 0, 0]);
        bytes.extend_from_slice(&[0x08, 0, 0x00, 0x01, b'S', b'H', 2, 0, b'A', b'1']);
        let coded = code(&[defined]);
        assert_eq!(coded.bytes, bytes);
        assert_eq!(coded.headers, [(0, Header::Long), (12, Header::Item), (20, Header::Short)]);
        let undefined = Element::sequence(0x0040_A730, vec![item(vec![inner], true)], true);
        let coded = code(&[undefined]);
        assert_eq!(coded.bytes.len(), 46);
        assert_eq!(coded.headers[3..], [(30, Header::Delimiter), (38, Header::Delimiter)]);
    }

    #[test]
    fn unknown_at_any_depth() {
        let unknown = Element::bytes(0x0009_0010, b"UN", b"");
        assert!(unknown.is_or_holds_unknown());
        let outer = |inner| Element::sequence(0x0040_A730, vec![item(vec![inner], false)], true);
        assert!(outer(outer(unknown)).is_or_holds_unknown());
        assert!(!outer(Element::fragments(0x7FE0_0010, vec![])).is_or_holds_unknown());
    }
}
