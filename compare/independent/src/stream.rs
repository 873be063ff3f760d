//! Section 5, "The stream (C.12.1.1.3)": the stream of an element.

use crate::reading::{Content, DataSet, Element};
use crate::tag_list::is_barred;

/// 5.2: "the four bytes of the item's tag".
const ITEM_TAG: [u8; 4] = [0xFE, 0xFF, 0x00, 0xE0];

/// 5.2: "and finally FE FF DD E0, whether the data set has a delimiter there or
/// not".
const SEQUENCE_DELIMITATION_TAG: [u8; 4] = [0xFE, 0xFF, 0xDD, 0xE0];

/// 4.5: "a UN in it, however deep, inside a barred element included". A UN counts
/// even where it is itself barred, and all this is so for 8.4 too (i).
pub fn holds_unknown(element: &Element) -> bool {
    match &element.content {
        Content::Items(items) => items
            .iter()
            .flat_map(|item| &item.elements)
            .any(|inner| inner.is_unknown() || holds_unknown(inner)),
        Content::Bytes | Content::Fragments(_) => false,
    }
}

/// The stream as far as it is written.
#[derive(Default)]
pub(crate) struct Writer {
    stream: Vec<u8>,
}

impl Writer {
    pub(crate) fn length(&self) -> usize {
        self.stream.len()
    }

    /// Writes one element by the rules of the stream.
    pub(crate) fn write(&mut self, element: &Element) {
        match &element.content {
            // 5.1: "An element that is neither an SQ nor an OB of undefined length
            // gives all its bytes, also those of its length."
            Content::Bytes => self.stream.extend_from_slice(element.bytes),
            // 5.2: "An SQ gives its tag, its VR and its reserved bytes; then, item
            // by item, .. and finally FE FF DD E0"
            Content::Items(items) => {
                self.stream.extend_from_slice(&element.bytes[..8]);
                for item in items {
                    self.write_item(item);
                }
                self.stream.extend_from_slice(&SEQUENCE_DELIMITATION_TAG);
            }
            // 5.3: "An OB of undefined length gives the same, with fragments for
            // items and the unchanged bytes of each for what elements give."
            Content::Fragments(fragments) => {
                self.stream.extend_from_slice(&element.bytes[..8]);
                for fragment in fragments {
                    self.stream.extend_from_slice(&ITEM_TAG);
                    self.stream.extend_from_slice(fragment);
                }
                self.stream.extend_from_slice(&SEQUENCE_DELIMITATION_TAG);
            }
        }
    }

    /// 5.2: "item by item, the four bytes of the item's tag and what the item's
    /// elements give by these same rules".
    fn write_item(&mut self, item: &DataSet) {
        self.stream.extend_from_slice(&ITEM_TAG);
        for element in &item.elements {
            // 5.4: "A barred element in a sequence gives nothing, however deep it
            // stands."
            if is_barred(element.tag) {
                continue;
            }
            self.write(element);
        }
    }

    /// The stream written.
    pub(crate) fn finish(self) -> Vec<u8> {
        self.stream
    }
}
