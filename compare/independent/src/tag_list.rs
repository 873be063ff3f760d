//! Section 4, "The list of tags": 10, 11, 12.

use crate::reading::Tag;
use crate::{answered, Answer};

/// 4.2: "A list has 1 to 1,024 tags".
pub const MOST_TAGS: usize = 1_024;

/// The list's tags, or 10, 11 or 12. The length is 0: nothing is written.
#[derive(Clone, Debug, PartialEq, Eq)]
pub struct TagList {
    pub answer: Answer,
    pub tags: Option<Vec<Tag>>,
}

/// Reads a tag list: 10, 11 over the whole list, 12 over the whole list.
pub fn read_list(list: &[u8]) -> TagList {
    let (answer, tags) = answered(tags_of(list));
    TagList { answer, tags }
}

pub(crate) fn tags_of(list: &[u8]) -> Result<Vec<Tag>, Answer> {
    // 9.3 row 10: "the list is empty, has more than 1,024 tags, or is not a
    // multiple of 4 bytes long"
    if list.is_empty() || list.len() > 4 * MOST_TAGS || list.len() % 4 != 0 {
        return Err(Answer::refused(10));
    }
    // 4.1: "Each tag takes four bytes, coded as in a data set."
    let tags: Vec<Tag> = list
        .chunks_exact(4)
        .map(|bytes| Tag::from_bytes([bytes[0], bytes[1], bytes[2], bytes[3]]))
        .collect();
    // 9.3 row 11: "a tag of the list is not above the one before it"; the later
    // tag's index (g)
    for index in 1..tags.len() {
        if tags[index] <= tags[index - 1] {
            return Err(Answer::refused_at(11, index));
        }
    }
    // 9.3 row 12: "a tag of the list is barred"
    for (index, &tag) in tags.iter().enumerate() {
        if is_barred(tag) {
            return Err(Answer::refused_at(12, index));
        }
    }
    Ok(tags)
}

/// 4.3: "barred: any with element number 0000; (0008,0001); any of a group below
/// 0008; any of group FFFA; (4FFE,0001); (FFFC,FFFC); (FFFE,E00D)."
pub fn is_barred(tag: Tag) -> bool {
    tag.element() == 0x0000
        || tag == Tag::new(0x0008, 0x0001)
        || tag.group() < 0x0008
        || tag.group() == 0xFFFA
        || tag == Tag::new(0x4FFE, 0x0001)
        || tag == Tag::new(0xFFFC, 0xFFFC)
        || tag == Tag::new(0xFFFE, 0xE00D)
}
