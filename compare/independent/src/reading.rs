//! Section 2, "The data set (PS3.5)": the tree of elements, or the leftmost fault.

use crate::{answered, Answer};

/// 2.1: "A data set has at most 1,048,576 bytes. It may have none."
pub const MOST_BYTES: usize = 1_048_576;

/// 2.3: "A sequence may stand at levels 0 to 15; one at level 16 gives 8, with or
/// without items."
pub const REFUSED_LEVEL: usize = 16;

/// 2.8: "The length FFFFFFFF is undefined."
const UNDEFINED: u32 = 0xFFFF_FFFF;

/// 2.5: "Tags are compared as the number group times 65,536 plus element."
#[derive(Clone, Copy, Debug, PartialEq, Eq, PartialOrd, Ord)]
pub struct Tag(pub u32);

impl Tag {
    pub const fn new(group: u16, element: u16) -> Tag {
        Tag(group as u32 * 65_536 + element as u32)
    }

    /// 2.4: "A tag is a group number and an element number, two bytes each. In
    /// group, element number and length the low byte comes first."
    pub fn from_bytes(bytes: [u8; 4]) -> Tag {
        Tag::new(
            u16::from_le_bytes([bytes[0], bytes[1]]),
            u16::from_le_bytes([bytes[2], bytes[3]]),
        )
    }

    pub fn group(self) -> u16 {
        (self.0 / 65_536) as u16
    }

    pub fn element(self) -> u16 {
        (self.0 % 65_536) as u16
    }
}

pub const ITEM: Tag = Tag::new(0xFFFE, 0xE000);
pub const ITEM_DELIMITATION: Tag = Tag::new(0xFFFE, 0xE00D);
pub const SEQUENCE_DELIMITATION: Tag = Tag::new(0xFFFE, 0xE0DD);

/// 2.6: "Short form, with a length of two bytes".
pub const SHORT_FORM: [&[u8; 2]; 21] = [
    b"AE", b"AS", b"AT", b"CS", b"DA", b"DS", b"DT", b"FL", b"FD", b"IS", b"LO", b"LT", b"PN",
    b"SH", b"SL", b"SS", b"ST", b"TM", b"UI", b"UL", b"US",
];

/// 2.7: "Long form, with two reserved bytes, both zero, and then a length of four
/// bytes".
pub const LONG_FORM: [&[u8; 2]; 6] = [b"OB", b"OW", b"OF", b"SQ", b"UT", b"UN"];

/// One element of a data set, lent from the data.
#[derive(Clone, Debug, PartialEq, Eq)]
pub struct Element<'d> {
    pub tag: Tag,
    pub vr: [u8; 2],
    /// Where the header starts in the data.
    pub offset: usize,
    /// Where the value starts in the data.
    pub value_offset: usize,
    /// All bytes, from the tag to the end of the value; where the length is
    /// undefined, the closing sequence delimiter included.
    pub bytes: &'d [u8],
    /// The value. 3.1: "the sequence delimiter that closes an element of undefined
    /// length is not in it".
    pub value: &'d [u8],
    pub content: Content<'d>,
}

impl Element<'_> {
    pub fn is_sequence(&self) -> bool {
        self.vr == *b"SQ"
    }

    pub fn is_unknown(&self) -> bool {
        self.vr == *b"UN"
    }
}

#[derive(Clone, Debug, PartialEq, Eq)]
pub enum Content<'d> {
    /// Any element that is neither SQ nor undefined OB.
    Bytes,
    /// SQ: each item is a data set.
    Items(Vec<DataSet<'d>>),
    /// OB of undefined length: the raw bytes of each fragment.
    Fragments(Vec<&'d [u8]>),
}

/// 2.2: "each item is again a data set". Elements with strictly rising tags.
#[derive(Clone, Debug, Default, PartialEq, Eq)]
pub struct DataSet<'d> {
    pub elements: Vec<Element<'d>>,
}

impl<'d> DataSet<'d> {
    /// The element with this tag at this data set's own level. The tags rise
    /// strictly (else 4), so there is at most one, and halving finds it.
    pub fn element(&self, tag: Tag) -> Option<&Element<'d>> {
        let index = self.elements.binary_search_by_key(&tag, |element| element.tag);
        index.ok().map(|index| &self.elements[index])
    }
}

/// What the reading of a data set gives: 0 and the tree, or 1 to 8, the
/// fault's offset and no tree. The length is 0: nothing is written.
#[derive(Clone, Debug, PartialEq, Eq)]
pub struct Reading<'d> {
    pub answer: Answer,
    pub data_set: Option<DataSet<'d>>,
}

/// Reads the data set: 1, then 2 to 8.
pub fn read(data: &[u8]) -> Reading<'_> {
    let (answer, data_set) = answered(check_size(data).and_then(|()| read_checked_size(data)));
    Reading { answer, data_set }
}

/// What the reading of one element gives: 0 and the element, or 0 and none at the
/// end of the data set, or 2 to 8 and the fault's offset. The length is 0: nothing
/// is written.
#[derive(Clone, Debug, PartialEq, Eq)]
pub struct One<'d> {
    pub answer: Answer,
    pub element: Option<Element<'d>>,
}

/// Reads the first element of a data set that may have `left` levels of sequences,
/// 16 at the top; more count as 16. The extent is all of `data`, whose size is not
/// tested. What stands behind the element is not looked at.
pub fn read_one(data: &[u8], left: u32) -> One<'_> {
    let (extent, level) = (Extent::top(data), REFUSED_LEVEL.saturating_sub(left as usize));
    let result = read_end(data, 0, extent).and_then(|end| match end {
        Some(_) => Ok(None),
        None => read_element(data, 0, extent, None, level).map(Some),
    });
    let (answer, element) = answered(result);
    One { answer, element: element.flatten() }
}

/// 9.3 row 1: "the data set is larger than 2.1 allows".
pub(crate) fn check_size(data: &[u8]) -> Result<(), Answer> {
    if data.len() > MOST_BYTES {
        return Err(Answer::refused(1));
    }
    Ok(())
}

/// 2 to 8. 2.3: "The elements of the top data set are at level 0".
pub(crate) fn read_checked_size(data: &[u8]) -> Result<DataSet<'_>, Answer> {
    let (data_set, _) = read_data_set(data, 0, Extent::top(data), 0)?;
    Ok(data_set)
}

/// The extent in which headers are read. `end` is the end of the nearest
/// enclosing defined length (a); `closed` says that the length itself is
/// undefined, so that a delimiter is awaited.
#[derive(Clone, Copy)]
struct Extent {
    end: usize,
    closed: bool,
}

impl Extent {
    /// All of the data, a defined extent.
    fn top(data: &[u8]) -> Extent {
        Extent { end: data.len(), closed: false }
    }

    /// (b): 0 bytes left is the end of a defined extent only.
    fn is_end(self, at: usize) -> bool {
        !self.closed && at == self.end
    }

    fn left(self, at: usize) -> usize {
        self.end - at
    }

    /// The extent inside a value or item of this length: its own where the
    /// length is defined, the nearest enclosing defined one where it is not
    /// (a). The length is checked.
    fn inside(self, start: usize, length: u32) -> Extent {
        if length == UNDEFINED {
            Extent { end: self.end, closed: true }
        } else {
            Extent { end: start + length as usize, closed: false }
        }
    }
}

fn tag_at(data: &[u8], at: usize) -> Tag {
    Tag::from_bytes([data[at], data[at + 1], data[at + 2], data[at + 3]])
}

fn four_byte_length_at(data: &[u8], at: usize) -> u32 {
    u32::from_le_bytes([data[at], data[at + 1], data[at + 2], data[at + 3]])
}

fn two_byte_length_at(data: &[u8], at: usize) -> u32 {
    u32::from(u16::from_le_bytes([data[at], data[at + 1]]))
}

/// The elements of one data set from `start`, at `level`, and where reading
/// goes on behind them.
fn read_data_set(
    data: &[u8],
    start: usize,
    extent: Extent,
    level: usize,
) -> Result<(DataSet<'_>, usize), Answer> {
    let mut elements: Vec<Element> = Vec::new();
    let mut at = start;
    loop {
        if let Some(end) = read_end(data, at, extent)? {
            return Ok((DataSet { elements }, end));
        }
        // 2.11c: "the element before it in the same data set" (f)
        let before = elements.last().map(|element| element.tag);
        let element = read_element(data, at, extent, before, level)?;
        at += element.bytes.len();
        elements.push(element);
    }
}

/// Where reading goes on if the data set ends at `at`; `None` if an element is due
/// there, for which there are 8 bytes.
fn read_end(data: &[u8], at: usize, extent: Extent) -> Result<Option<usize>, Answer> {
    if extent.is_end(at) {
        return Ok(Some(at));
    }
    // 2.11a: "fewer than 8 bytes are left in the extent"
    if extent.left(at) < 8 {
        return Err(Answer::refused_at(2, at));
    }
    // 2.14: "(FFFE,E00D) with length 0, the item delimiter, ends an item of
    // undefined length. It stands in the place of an element and is tested for
    // right after 2.11a."
    if extent.closed
        && tag_at(data, at) == ITEM_DELIMITATION
        && four_byte_length_at(data, at + 4) == 0
    {
        return Ok(Some(at + 8));
    }
    Ok(None)
}

/// 2.11: "These are the checks at one element, in their order"; 2.11a is done.
fn read_element(
    data: &[u8],
    at: usize,
    extent: Extent,
    before: Option<Tag>,
    level: usize,
) -> Result<Element<'_>, Answer> {
    let tag = tag_at(data, at);
    // 2.11b: "the group is FFFE"
    if tag.group() == 0xFFFE {
        return Err(Answer::refused_at(3, at));
    }
    // 2.11c: "the tag is not above that of the element before it in the same
    // data set"
    if before.is_some_and(|before| tag <= before) {
        return Err(Answer::refused_at(4, at));
    }
    let vr = [data[at + 4], data[at + 5]];
    let (length, value_offset) = read_length(data, at, extent, vr)?; // 5, 2, 6
    check_length(at, vr, length, extent.left(value_offset), level)?; // 7, 8, 2
    let inside = extent.inside(value_offset, length);
    let (content, value_end, end) = read_content(data, value_offset, vr, inside, level)?;
    Ok(Element {
        tag,
        vr,
        offset: at,
        value_offset,
        bytes: &data[at..end],
        value: &data[value_offset..value_end],
        content,
    })
}

/// The checks of the VR and its form: 5, 2, 6. Gives the length and where the
/// value starts.
fn read_length(
    data: &[u8],
    at: usize,
    extent: Extent,
    vr: [u8; 2],
) -> Result<(u32, usize), Answer> {
    let short = SHORT_FORM.contains(&&vr);
    let long = LONG_FORM.contains(&&vr);
    // 2.11d: "the VR is neither in 2.6 nor in 2.7"
    if !short && !long {
        return Err(Answer::refused_at(5, at));
    }
    if short {
        return Ok((two_byte_length_at(data, at + 6), at + 8));
    }
    // 2.11e: "the form is long, and fewer than 12 bytes are left"
    if extent.left(at) < 12 {
        return Err(Answer::refused_at(2, at));
    }
    // 2.11f: "the reserved bytes are not zero"
    if data[at + 6] != 0 || data[at + 7] != 0 {
        return Err(Answer::refused_at(6, at));
    }
    Ok((four_byte_length_at(data, at + 8), at + 12))
}

/// The checks of the length: 7, 8, 2; `left` is what the extent has left
/// behind the header.
fn check_length(
    at: usize,
    vr: [u8; 2],
    length: u32,
    left: usize,
    level: usize,
) -> Result<(), Answer> {
    // 2.11g: "the length is undefined and the VR neither SQ nor OB, or the length
    // is defined and odd". FFFFFFFF on another VR is odd as a number.
    let undefined = length == UNDEFINED && (vr == *b"SQ" || vr == *b"OB");
    if !undefined && length % 2 == 1 {
        return Err(Answer::refused_at(7, at));
    }
    // 2.11h: "it is an SQ at level 16"
    if vr == *b"SQ" && level == REFUSED_LEVEL {
        return Err(Answer::refused_at(8, at));
    }
    // 2.11i: "the length is defined, and the value ends past the extent"
    if !undefined && length as usize > left {
        return Err(Answer::refused_at(2, at));
    }
    Ok(())
}

/// What a value holds, its end (without a closing delimiter), and where
/// reading goes on behind it.
fn read_content(
    data: &[u8],
    start: usize,
    vr: [u8; 2],
    inside: Extent,
    level: usize,
) -> Result<(Content<'_>, usize, usize), Answer> {
    if vr == *b"SQ" {
        let (items, value_end, end) = read_items(data, start, inside, level)?;
        Ok((Content::Items(items), value_end, end))
    } else if inside.closed {
        // Of the other VRs only OB may be undefined (2.11g).
        let (fragments, value_end, end) = read_fragments(data, start, inside)?;
        Ok((Content::Fragments(fragments), value_end, end))
    } else {
        // 2.19: "Nothing inside a fragment, or inside the value of a UN, is
        // examined."
        Ok((Content::Bytes, inside.end, inside.end))
    }
}

/// The header in an item's or a fragment's place.
enum Header {
    /// The closing sequence delimiter.
    Closing,
    /// An item with its length, not yet checked.
    Item { length: u32 },
}

/// The first checks of an item's or a fragment's header (c): 8 bytes (2),
/// closing delimiter, other tag (3).
fn read_item_header(data: &[u8], at: usize, extent: Extent) -> Result<Header, Answer> {
    // 2.12: "Where fewer than 8 are left, it gives 2."
    if extent.left(at) < 8 {
        return Err(Answer::refused_at(2, at));
    }
    let tag = tag_at(data, at);
    let length = four_byte_length_at(data, at + 4);
    // 2.15: "(FFFE,E0DD) with length 0, the sequence delimiter, ends a sequence
    // of undefined length."
    if extent.closed && tag == SEQUENCE_DELIMITATION && length == 0 {
        return Ok(Header::Closing);
    }
    // 2.16: "Where an item is due, every tag but an item's or the due delimiter's
    // gives 3. There .. a delimiter whose length is not 0 gives 3, and so does a
    // delimiter where the item or sequence that it would end has a defined length."
    if tag != ITEM {
        return Err(Answer::refused_at(3, at));
    }
    Ok(Header::Item { length })
}

/// The last checks of an item's or a fragment's header with a defined
/// length (c): odd (7), past the extent (2). Gives the end of its bytes.
fn check_item_length(at: usize, length: u32, extent: Extent) -> Result<usize, Answer> {
    // 2.13: "The defined length of an item is even; an odd one gives 7."
    if length % 2 == 1 {
        return Err(Answer::refused_at(7, at));
    }
    // 2.13: "The item ends inside the extent; one that does not gives 2."
    if length as usize > extent.left(at + 8) {
        return Err(Answer::refused_at(2, at));
    }
    Ok(at + 8 + length as usize)
}

/// The items of a sequence at `level`, the end of its value (without a
/// closing delimiter), and where reading goes on behind it.
fn read_items(
    data: &[u8],
    start: usize,
    extent: Extent,
    level: usize,
) -> Result<(Vec<DataSet<'_>>, usize, usize), Answer> {
    let mut items = Vec::new();
    let mut at = start;
    while !extent.is_end(at) {
        let length = match read_item_header(data, at, extent)? {
            Header::Closing => return Ok((items, at, at + 8)),
            Header::Item { length } => length,
        };
        if length != UNDEFINED {
            check_item_length(at, length, extent)?;
        }
        let inside = extent.inside(at + 8, length);
        // 2.3: "those in the items of a sequence at level n are at level n + 1"
        let (item, end) = read_data_set(data, at + 8, inside, level + 1)?;
        items.push(item);
        at = end;
    }
    Ok((items, at, at))
}

/// 2.17: "The value of an OB of undefined length is a row of fragments, maybe an
/// empty one: items whose length is defined and even. The sequence delimiter with
/// length 0 ends it." 2.18: "For the headers of fragments 2 and 3 are given as in a
/// sequence."
fn read_fragments(
    data: &[u8],
    start: usize,
    extent: Extent,
) -> Result<(Vec<&[u8]>, usize, usize), Answer> {
    let mut fragments = Vec::new();
    let mut at = start;
    loop {
        let length = match read_item_header(data, at, extent)? {
            Header::Closing => return Ok((fragments, at, at + 8)),
            Header::Item { length } => length,
        };
        // 2.18: "A fragment whose length is undefined or odd gives 7."; FFFFFFFF
        // is an odd number.
        let end = check_item_length(at, length, extent)?;
        fragments.push(&data[at + 8..end]);
        at = end;
    }
}
