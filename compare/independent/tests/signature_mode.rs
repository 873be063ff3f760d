//! The stream of signature mode, the numbers 18 to 23 and their order, and the
//! reading (j).

mod common;
use common::*;
use independent::sha256::sha256;
use independent::{signature_mode, Answer, Verdict};

const UID: &[u8] = b"1.2.840.10008.1.2.1";

fn mac_id(number: u16) -> Vec<u8> {
    short(0x0400_0005, "US", &number.to_le_bytes())
}

/// The elements of a parameters item, to be broken one by one; an empty one is
/// left out.
struct Parameters {
    mac_id: Vec<u8>,
    transfer_syntax: Vec<u8>,
    algorithm: Vec<u8>,
    list: Vec<u8>,
}

impl Parameters {
    fn good() -> Parameters {
        Parameters {
            mac_id: mac_id(7),
            transfer_syntax: short(0x0400_0010, "UI", b"1.2.840.10008.1.2.1\0"),
            algorithm: short(0x0400_0015, "CS", b"SHA256"),
            list: short(0x0400_0020, "AT", &tag(0x0008_0060)),
        }
    }

    fn item(&self) -> Vec<u8> {
        item(&join(&[&self.mac_id, &self.transfer_syntax, &self.algorithm, &self.list]))
    }

    /// What is said where these are the parameters and `uid` is the caller's.
    fn said_to(&self, uid: &[u8]) -> (u64, u64) {
        said(&signed(&self.item(), &item(&mac_id(7))), uid, None)
    }

    fn said(&self) -> (u64, u64) {
        self.said_to(UID)
    }
}

/// A data set with these items of parameters and of signatures.
fn signed(parameters: &[u8], signatures: &[u8]) -> Vec<u8> {
    join(&[
        &A,
        &B,
        &long(0x4FFE_0001, "SQ", parameters),
        &long(0xFFFA_FFFA, "SQ", signatures),
    ])
}

/// Number and position.
fn said(data: &[u8], uid: &[u8], which: Option<usize>) -> (u64, u64) {
    place(signature_mode::stream(data, uid, which, 10_000).answer)
}

/// A signature item with elements that stay and elements that are left out,
/// and what it adds to the stream.
fn signature_and_its_stream() -> (Vec<u8>, Vec<u8>) {
    let inner = join(&[&short(0x0400_0115, "LO", b"in"), &short(0x0400_0120, "LO", b"in")]);
    let kept_sequence = long(0x0400_0401, "SQ", &item(&inner));
    let unknown = long(0x0009_0010, "UN", &[]);
    let signature = join(&[
        &short(0x0008_0000, "UL", &[0; 4]),
        &unknown,
        &mac_id(7),
        &short(0x0400_0100, "UI", b"1\0"),
        &short(0x0400_0115, "LO", b"no"),
        &short(0x0400_0120, "LO", b"no"),
        &short(0x0400_0305, "LO", b"no"),
        &short(0x0400_0310, "LO", b"no"),
        &kept_sequence,
        &long(0x0400_0402, "SQ", &item(&unknown)),
        &long(0x0400_0403, "SQ", &item(&long(0x4FFE_0001, "SQ", &item(&unknown)))),
        &open(0x0400_0404, "OB", &item(b"ab")),
        &long(0x4FFE_0001, "SQ", &[]),
        &short(0xFFFA_0001, "LO", &[]),
    ]);
    let stream = join(&[
        &mac_id(7),
        &short(0x0400_0100, "UI", b"1\0"),
        &kept_sequence[..8],
        &tag(0xFFFE_E000),
        &inner,
        &tag(0xFFFE_E0DD),
        &long_header(0x0400_0404, "OB", 0)[..8],
        &tag(0xFFFE_E000),
        b"ab",
        &tag(0xFFFE_E0DD),
    ]);
    (signature, stream)
}

#[test]
fn stream_and_check() {
    let (signature, stream) = signature_and_its_stream();
    let data = signed(&Parameters::good().item(), &item(&signature));
    let expected = join(&[&A, &stream]);
    let streamed = signature_mode::stream(&data, UID, None, expected.len());
    assert_eq!(streamed.answer, Answer::accepted(expected.len()));
    assert_eq!(streamed.stream.unwrap(), expected);
    assert_eq!(signature_mode::measure(&data, UID, None), Answer::accepted(expected.len()));
    assert_eq!(signature_mode::measure(&data, UID, Some(1)), Answer::refused(18));
    assert_eq!(signature_mode::stream(&data, UID, Some(0), expected.len() - 1).answer.number, 16);
    assert_eq!(signature_mode::stream(&data, UID, Some(1), expected.len()).answer.number, 18);
    let same = signature_mode::check(&data, UID, None, &sha256(&expected), expected.len());
    assert_eq!(same.verdict, Verdict::Same);
    let differs = signature_mode::check(&data, UID, None, &[0; 32], expected.len());
    assert_eq!((differs.answer.number, differs.verdict), (0, Verdict::Differs));
    assert_eq!(signature_mode::check(&data, UID, None, &[0; 31], 0).answer.number, 9);
}

#[test]
fn number_18() {
    assert_eq!(Parameters::good().said(), GOOD);
    assert_eq!(said(&[], UID, None), (18, 0));
    assert_eq!(said(&long(0xFFFA_FFFA, "SQ", &[]), UID, None), (18, 0));
    assert_eq!(said(&long(0xFFFA_FFFA, "UN", &item(&mac_id(7))), UID, None), (18, 0));
    // inside an item is not the top level
    let inside = long(SQ, "SQ", &item(&long(0xFFFA_FFFA, "SQ", &item(&mac_id(7)))));
    assert_eq!(said(&inside, UID, None), (18, 0));
}

#[test]
fn number_19() {
    let parameters = Parameters::good().item();
    for signature in [
        vec![],
        short(0x0400_0005, "SS", &[7, 0]),
        short(0x0400_0005, "US", &[7, 0, 7, 0]),
        short(0x0400_0005, "US", &[]),
    ] {
        assert_eq!(said(&signed(&parameters, &item(&signature)), UID, None), (19, 0));
    }
    // the second signature with its own number
    let data = signed(&parameters, &join(&[&item(&[]), &item(&mac_id(7))]));
    assert_eq!(said(&data, UID, None), (19, 0));
    assert_eq!(said(&data, UID, Some(1)), GOOD);
}

#[test]
fn number_20() {
    let parameters = Parameters::good().item();
    assert_eq!(said(&long(0xFFFA_FFFA, "SQ", &item(&mac_id(7))), UID, None), (20, 0));
    assert_eq!(said(&signed(&parameters, &item(&mac_id(0x0700))), UID, None), (20, 0));
    // (j) passed over without a US of length 2; the first with the number is
    // taken even if it is broken
    let with_items = |items: &[&[u8]]| said(&signed(&join(items), &item(&mac_id(7))), UID, None);
    let no_number = item(&short(0x0400_0005, "US", &[7, 0, 7, 0]));
    assert_eq!(with_items(&[&no_number, &item(&[]), &item(&mac_id(8)), &parameters]), GOOD);
    assert_eq!(with_items(&[&item(&mac_id(7)), &parameters]), (21, 0));
}

#[test]
fn number_21() {
    for transfer_syntax in [
        vec![],
        short(0x0400_0010, "LO", b"1.2.840.10008.1.2.1\0"),
        short(0x0400_0010, "UI", b""),
        short(0x0400_0010, "UI", b"1.2.840.10008.1.2.1 "),
        short(0x0400_0010, "UI", b"1.2.840.10008.1.2.10"),
        short(0x0400_0010, "UI", b"1.2.840.10008.1.2.1\0\0\0"),
    ] {
        assert_eq!(Parameters { transfer_syntax, ..Parameters::good() }.said(), (21, 0));
    }
    let with_uid = |value: &[u8], uid: &[u8]| {
        let transfer_syntax = short(0x0400_0010, "UI", value);
        Parameters { transfer_syntax, ..Parameters::good() }.said_to(uid)
    };
    // (j) the value loses at most one NUL, the caller's UID none
    assert_eq!(with_uid(b"1.2.840.10008.1.2.1\0", b"1.2.840.10008.1.2.1\0"), (21, 0));
    assert_eq!(with_uid(b"1.2.3\0\0\0", b"1.2.3\0\0"), GOOD);
    assert_eq!(with_uid(b"\0\0", b"\0"), GOOD);
    assert_eq!(with_uid(b"", b""), (21, 0));
    assert_eq!(with_uid(b"1.2.840.10008.1.2\0", b"1.2.840.10008.1.2"), (21, 0));
    assert_eq!(with_uid(b"1.2.840.10008.1.2.2\0", b"1.2.840.10008.1.2.2"), (21, 0));
    assert_eq!(with_uid(b"1.2.840.10008.1.2.4.50", b"1.2.840.10008.1.2.4.50"), GOOD);
}

#[test]
fn number_22() {
    let with = |algorithm| Parameters { algorithm, ..Parameters::good() }.said();
    assert_eq!(with(vec![]), (22, 0));
    assert_eq!(with(short(0x0400_0015, "LO", b"SHA256")), (22, 0));
    let others: [&[u8]; 6] =
        [b"", b"SHA1", b"sha256", b" SHA256 ", b"SHA256\0\0", b"SHA256 \0"];
    for other in others {
        assert_eq!(with(short(0x0400_0015, "CS", other)), (22, 0));
    }
    assert_eq!(with(short(0x0400_0015, "CS", b"SHA256    ")), GOOD);
}

#[test]
fn number_23() {
    for list in [vec![], short(0x0400_0020, "UL", &tag(0x0008_0060))] {
        assert_eq!(Parameters { list, ..Parameters::good() }.said(), (23, 0));
    }
}

#[test]
fn numbers_10_to_13_of_the_list() {
    // with the index into the list; (j) an AT of length 0 is 10
    let with_list = |tags: &[u32]| {
        let list = short(0x0400_0020, "AT", &list(tags));
        Parameters { list, ..Parameters::good() }.said()
    };
    assert_eq!(with_list(&[]), (10, 0));
    assert_eq!(with_list(&[0x0008_0060, 0x0010_0010]), GOOD);
    assert_eq!(with_list(&[0x0010_0010, 0x0008_0060]), (11, 1));
    assert_eq!(with_list(&[0x0008_0060, 0xFFFA_FFFA]), (12, 1));
    assert_eq!(with_list(&[0x0008_0060, 0x0008_0061]), (13, 1));
}

#[test]
fn each_broken_thing_hides_the_later_ones() {
    // 2 to 8 before 18
    assert_eq!(said(&[0], UID, None), (2, 0));
    let id_alone = Parameters {
        transfer_syntax: vec![],
        algorithm: vec![],
        list: vec![],
        ..Parameters::good()
    };
    assert_eq!(id_alone.said(), (21, 0));
    let without_algorithm = Parameters { algorithm: vec![], list: vec![], ..Parameters::good() };
    assert_eq!(without_algorithm.said(), (22, 0));
}
