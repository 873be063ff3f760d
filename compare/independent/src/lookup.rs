//! Section 3, "The lookup". 3.1: "The lookup returns the value of a tag at the top
//! level, as a part of the data set that it was lent".

use crate::reading::{read, Tag};
use crate::Answer;

/// The reading's answer, the part, and whether the tag was found.
#[derive(Clone, Debug, PartialEq, Eq)]
pub struct Lookup<'d> {
    /// 3.3: "the reading's number (0 to 8) and position".
    pub answer: Answer,
    /// Where the part starts in the data.
    pub offset: usize,
    /// The part itself. 3.1: "the sequence delimiter that closes an element of
    /// undefined length is not in it".
    pub value: &'d [u8],
    /// 3.3: "a yes or no that says if the tag was found".
    pub stands: bool,
}

/// The value of `tag` at the top level of `data`.
pub fn lookup(data: &[u8], tag: Tag) -> Lookup<'_> {
    let reading = read(data);
    let element = reading.data_set.as_ref().and_then(|data_set| data_set.element(tag));
    let (offset, value, stands) = match element {
        Some(element) => (element.value_offset, element.value, true),
        // 3.2: "If the data set is refused, or has no such tag at the top level,
        // the part has no bytes and lies at the data set's end." (k)
        None => (data.len(), &data[data.len()..], false),
    };
    Lookup { answer: reading.answer, offset, value, stands }
}
