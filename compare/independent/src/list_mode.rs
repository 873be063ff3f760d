//! List mode. 1.1: the build "forms the MAC stream, from a list of tags alone".

use crate::reading::{check_size, read_checked_size, DataSet, Element, Tag};
use crate::stream::{holds_unknown, Writer};
use crate::tag_list::tags_of;
use crate::{Answer, Checked, Streamed};

/// The stream of `list` in `data`, with `room` bytes of output.
pub fn stream(data: &[u8], list: &[u8], room: usize) -> Streamed {
    Streamed::from_result(run(data, list, None, room))
}

/// The answer of `stream` with room enough.
pub fn measure(data: &[u8], list: &[u8]) -> Answer {
    stream(data, list, usize::MAX).answer
}

/// The check of `expected`, with a work buffer of `room` bytes.
pub fn check(data: &[u8], list: &[u8], expected: &[u8], room: usize) -> Checked {
    Checked::from_result(run(data, list, Some(expected), room), expected)
}

/// 9.4: "The order of list mode: 1; 10; 11 over the whole list; 12 over the whole
/// list; 2 to 8; then for each tag in turn 13, 14, 15; then 9, 16".
fn run(
    data: &[u8],
    list: &[u8],
    expected: Option<&[u8]>,
    room: usize,
) -> Result<Vec<u8>, Answer> {
    check_size(data)?; // 1
    let tags = tags_of(list)?; // 10, 11, 12
    let data_set = read_checked_size(data)?; // 2 to 8
    let listed = listed_elements(&data_set, &tags)?; // 13, 14, 15
    check_expected(expected)?; // 9
    write_all(&listed, room) // 16
}

/// 5.5: "The listed elements come in the order of the list."; 9.4: "for each tag
/// in turn 13, 14, 15".
pub(crate) fn listed_elements<'t, 'd>(
    data_set: &'t DataSet<'d>,
    tags: &[Tag],
) -> Result<Vec<&'t Element<'d>>, Answer> {
    let mut listed = Vec::new();
    for (index, &tag) in tags.iter().enumerate() {
        // 9.3 row 13: "a listed tag does not stand at the top level"
        let element = match data_set.element(tag) {
            Some(element) => element,
            None => return Err(Answer::refused_at(13, index)),
        };
        // 9.3 row 14: "a listed element is a UN"
        if element.is_unknown() {
            return Err(Answer::refused_at(14, index));
        }
        // 9.3 row 15: "a listed sequence has a UN in it"
        if element.is_sequence() && holds_unknown(element) {
            return Err(Answer::refused_at(15, index));
        }
        listed.push(element);
    }
    Ok(listed)
}

/// 9.3 row 9: "in a check only: the expected digest is not 32 bytes long".
pub(crate) fn check_expected(expected: Option<&[u8]>) -> Result<(), Answer> {
    match expected {
        Some(expected) if expected.len() != 32 => Err(Answer::refused(9)),
        _ => Ok(()),
    }
}

/// The streams of `elements`, one after the other, or 16.
pub(crate) fn write_all(elements: &[&Element], room: usize) -> Result<Vec<u8>, Answer> {
    let mut writer = Writer::default();
    for element in elements {
        writer.write(element);
    }
    // 9.3 row 16: "the output room is less than the stream's length"
    if room < writer.length() {
        return Err(Answer::refused(16));
    }
    Ok(writer.finish())
}
