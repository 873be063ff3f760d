//! Section 8, "Signature mode". 1.1: the build "forms the MAC stream, .. for one of
//! the signatures in the data set".

use crate::list_mode::{check_expected, listed_elements, write_all};
use crate::reading::{check_size, read_checked_size, Content, DataSet, Element, Tag};
use crate::stream::holds_unknown;
use crate::tag_list::{is_barred, tags_of};
use crate::{Answer, Checked, Streamed};

pub const MAC_ID_NUMBER: Tag = Tag::new(0x0400, 0x0005);
pub const MAC_CALCULATION_TRANSFER_SYNTAX_UID: Tag = Tag::new(0x0400, 0x0010);
pub const MAC_ALGORITHM: Tag = Tag::new(0x0400, 0x0015);
pub const DATA_ELEMENTS_SIGNED: Tag = Tag::new(0x0400, 0x0020);
pub const CERTIFICATE_OF_SIGNER: Tag = Tag::new(0x0400, 0x0115);
pub const SIGNATURE: Tag = Tag::new(0x0400, 0x0120);
pub const CERTIFIED_TIMESTAMP_TYPE: Tag = Tag::new(0x0400, 0x0305);
pub const CERTIFIED_TIMESTAMP: Tag = Tag::new(0x0400, 0x0310);
pub const MAC_PARAMETERS_SEQUENCE: Tag = Tag::new(0x4FFE, 0x0001);
pub const DIGITAL_SIGNATURES_SEQUENCE: Tag = Tag::new(0xFFFA, 0xFFFA);

const IMPLICIT_VR_LITTLE_ENDIAN: &[u8] = b"1.2.840.10008.1.2";
const EXPLICIT_VR_BIG_ENDIAN: &[u8] = b"1.2.840.10008.1.2.2";

/// The stream of signature number `which` in `data`, whose transfer syntax
/// the caller says is `uid`, with `room` bytes of output.
pub fn stream(data: &[u8], uid: &[u8], which: Option<usize>, room: usize) -> Streamed {
    Streamed::from_result(run(data, uid, which, None, room))
}

/// The answer of `stream` with room enough.
pub fn measure(data: &[u8], uid: &[u8], which: Option<usize>) -> Answer {
    stream(data, uid, which, usize::MAX).answer
}

/// The check of `expected`, with a work buffer of `room` bytes.
pub fn check(
    data: &[u8],
    uid: &[u8],
    which: Option<usize>,
    expected: &[u8],
    room: usize,
) -> Checked {
    Checked::from_result(run(data, uid, which, Some(expected), room), expected)
}

/// 9.5: "The order of signature mode: 1; 2 to 8; 18 to 23; 10; 11; 12; then for
/// each tag in turn 13, 14, 15; then 9, 16".
fn run(
    data: &[u8],
    uid: &[u8],
    which: Option<usize>,
    expected: Option<&[u8]>,
    room: usize,
) -> Result<Vec<u8>, Answer> {
    check_size(data)?; // 1
    let data_set = read_checked_size(data)?; // 2 to 8
    let signature = signature_item(&data_set, which)?; // 18
    let number = mac_id_number(signature).ok_or(Answer::refused(19))?; // 19
    let parameters = parameters_item(&data_set, number)?; // 20
    check_transfer_syntax(parameters, uid)?; // 21
    check_algorithm(parameters)?; // 22
    let list = signed_list(parameters)?; // 23
    let tags = tags_of(list)?; // 10, 11, 12
    let mut elements = listed_elements(&data_set, &tags)?; // 13, 14, 15
    check_expected(expected)?; // 9
    // 8.4: "After the listed elements the stream goes on with the signature item's
    // own elements, by section 5."
    elements.extend(signature_elements(signature));
    write_all(&elements, room) // 16
}

/// The items of a top level element of VR SQ.
fn items_of<'t, 'd>(data_set: &'t DataSet<'d>, tag: Tag) -> Option<&'t [DataSet<'d>]> {
    match &data_set.element(tag)?.content {
        Content::Items(items) => Some(items),
        Content::Bytes | Content::Fragments(_) => None,
    }
}

/// 9.3 row 18: "there is no (FFFA,FFFA) with VR SQ, or it has no item with the
/// signature's number"; 8.1: "signatures are counted from 0. Where no number is
/// given, 0 is taken."
fn signature_item<'t, 'd>(
    data_set: &'t DataSet<'d>,
    which: Option<usize>,
) -> Result<&'t DataSet<'d>, Answer> {
    items_of(data_set, DIGITAL_SIGNATURES_SEQUENCE)
        .and_then(|items| items.get(which.unwrap_or(0)))
        .ok_or(Answer::refused(18))
}

/// 9.3 rows 19 and 20: an item's "(0400,0005) with VR US and length 2", as its two
/// bytes (j).
fn mac_id_number<'d>(item: &DataSet<'d>) -> Option<&'d [u8]> {
    let element = item.element(MAC_ID_NUMBER)?;
    (element.vr == *b"US" && element.value.len() == 2).then_some(element.value)
}

/// 9.3 row 20: "there is no (4FFE,0001) with VR SQ, or none of its items has the
/// signature item's MAC ID Number in a (0400,0005) with VR US and length 2"; 8.2: "The
/// parameters item is the first in (4FFE,0001) whose MAC ID Number, (0400,0005),
/// equals the signature item's." Items without such a US are passed over (j).
fn parameters_item<'t, 'd>(
    data_set: &'t DataSet<'d>,
    number: &[u8],
) -> Result<&'t DataSet<'d>, Answer> {
    items_of(data_set, MAC_PARAMETERS_SEQUENCE)
        .and_then(|items| items.iter().find(|item| mac_id_number(item) == Some(number)))
        .ok_or(Answer::refused(20))
}

/// 9.3 row 21: "(0400,0010) is absent, is not UI or is empty; or its value, less
/// one NUL where it ends in one, is not the caller's UID as it was given, or is
/// 1.2.840.10008.1.2 or 1.2.840.10008.1.2.2".
fn check_transfer_syntax(parameters: &DataSet, uid: &[u8]) -> Result<(), Answer> {
    let refused = Err(Answer::refused(21));
    let element = match parameters.element(MAC_CALCULATION_TRANSFER_SYNTAX_UID) {
        Some(element) => element,
        None => return refused,
    };
    if element.vr != *b"UI" || element.value.is_empty() {
        return refused;
    }
    let value = element.value.strip_suffix(&[0x00]).unwrap_or(element.value);
    if value != uid || value == IMPLICIT_VR_LITTLE_ENDIAN || value == EXPLICIT_VR_BIG_ENDIAN {
        return refused;
    }
    Ok(())
}

/// 9.3 row 22: "(0400,0015) is absent, is not CS, or is not SHA256, spaces at its
/// end aside".
fn check_algorithm(parameters: &DataSet) -> Result<(), Answer> {
    let refused = Err(Answer::refused(22));
    let element = match parameters.element(MAC_ALGORITHM) {
        Some(element) => element,
        None => return refused,
    };
    if element.vr != *b"CS" {
        return refused;
    }
    let mut value = element.value;
    while let Some(shorter) = value.strip_suffix(b" ") {
        value = shorter;
    }
    if value != b"SHA256" {
        return refused;
    }
    Ok(())
}

/// 8.3: "The list is the value of (0400,0020) of the parameters item."; 9.3 row 23:
/// "(0400,0020) is absent or is not AT".
fn signed_list<'d>(parameters: &DataSet<'d>) -> Result<&'d [u8], Answer> {
    match parameters.element(DATA_ELEMENTS_SIGNED) {
        Some(element) if element.vr == *b"AT" => Ok(element.value),
        _ => Err(Answer::refused(23)),
    }
}

/// 8.4: "Left out are (0400,0115), (0400,0120), (0400,0305) and (0400,0310), barred
/// elements, UN elements, and sequences with a UN in them, however deep."; 8.5: "The
/// four tags named in 8.4 are left out only among the signature item's own
/// elements, not deeper."
fn signature_elements<'t, 'd>(
    signature: &'t DataSet<'d>,
) -> impl Iterator<Item = &'t Element<'d>> {
    let named = [
        CERTIFICATE_OF_SIGNER,
        SIGNATURE,
        CERTIFIED_TIMESTAMP_TYPE,
        CERTIFIED_TIMESTAMP,
    ];
    signature.elements.iter().filter(move |element| {
        !named.contains(&element.tag)
            && !is_barred(element.tag)
            && !element.is_unknown()
            && !(element.is_sequence() && holds_unknown(element))
    })
}
