//! The numbers 9 and 13 to 16 in list mode, each with its accepted neighbour,
//! their order, and the reading (i).

mod common;
use common::*;
use independent::sha256::sha256;
use independent::{list_mode, Answer, Verdict};

fn said(data: &[u8], list: &[u8]) -> (u64, u64) {
    place(list_mode::stream(data, list, 1000).answer)
}

fn unknown() -> Vec<u8> {
    long(0x0009_0010, "UN", b"ab")
}

#[test]
fn numbers_13_and_14() {
    let data = join(&[&A, &unknown(), &B]);
    assert_eq!(said(&data, &list(&[0x0008_0060, 0x0010_0010])), GOOD);
    assert_eq!(said(&data, &list(&[0x0008_0060, 0x0009_0010, 0x0010_0011])), (14, 1));
    assert_eq!(said(&data, &list(&[0x0008_0060, 0x0009_0009, 0x0009_0010])), (13, 1));
    // 16.5: "only the top level counts"
    assert_eq!(said(&long(SQ, "SQ", &item(&S)), &list(&[0x0008_0100])), (13, 0));
}

#[test]
fn number_15() {
    // (i) a UN that is barred itself, and one inside a barred element
    for inner in [
        unknown(),
        long(0x0007_0010, "UN", &[]),
        long(0x4FFE_0001, "SQ", &item(&unknown())),
        long(SQ, "SQ", &item(&long(SQ, "SQ", &item(&unknown())))),
    ] {
        let data = long(SQ, "SQ", &join(&[&item(&S), &item(&inner)]));
        assert_eq!(said(&data, &list(&[SQ])), (15, 0));
        assert_eq!(said(&join(&[&A, &data]), &list(&[0x0008_0060])), GOOD);
    }
    // 2.19: "Nothing inside a fragment .. is examined."
    let closed = open(PIXELS, "OB", &item(&unknown()));
    assert_eq!(said(&closed, &list(&[PIXELS])), GOOD);
}

#[test]
fn numbers_9_and_16_and_the_order() {
    // 1 before 10; 10 to 12 before 2; 13 before 9; 9 before 16
    let l = tag(0x0008_0060);
    assert_eq!(list_mode::stream(&vec![0; 1_048_577], &[], 0).answer.number, 1);
    assert_eq!(list_mode::stream(&[0], &[], 0).answer.number, 10);
    assert_eq!(list_mode::stream(&[0], &tag(0x0008_0000), 0).answer.number, 12);
    assert_eq!(list_mode::check(&B, &l, &[], 0).answer.number, 13);
    assert_eq!(list_mode::check(&A, &l, &[0; 31], 0).answer.number, 9);
    assert_eq!(list_mode::check(&A, &l, &[0; 33], 10).answer.number, 9);
    let short_room = list_mode::check(&A, &l, &[0; 32], 9);
    assert_eq!(short_room.answer, Answer::refused(16));
    assert_eq!(short_room.verdict, Verdict::Neither);
}

#[test]
fn measured_as_streamed_with_room_enough() {
    let l = tag(0x0008_0060);
    assert_eq!(list_mode::measure(&join(&[&A, &B]), &l), Answer::accepted(10));
    // RULES 15.8: a stream of 26 bytes
    assert_eq!(list_mode::measure(&long(SQ, "SQ", &item(&S)), &list(&[SQ])), Answer::accepted(26));
    assert_eq!(list_mode::measure(&A, &[]), Answer::refused(10));
    assert_eq!(list_mode::measure(&join(&[&B, &A]), &l), Answer::refused_at(4, 10));
    assert_eq!(list_mode::measure(&A, &list(&[0x0008_0060, 0x0008_0061])), Answer::refused_at(13, 1));
}

#[test]
fn verdicts() {
    let l = tag(0x0008_0060);
    let differs = list_mode::check(&A, &l, &[0; 32], 10);
    assert_eq!((differs.answer, differs.verdict), (Answer::accepted(10), Verdict::Differs));
    let same = list_mode::check(&A, &l, &sha256(&A), 10);
    assert_eq!((same.answer, same.verdict), (Answer::accepted(10), Verdict::Same));
    assert_eq!(same.stream.unwrap(), A);
}

#[test]
fn barred_elements_in_a_sequence_are_left_out() {
    let barred = long(0x4FFE_0001, "SQ", &item(&S));
    let deep = long(0x0040_A730, "SQ", &item(&join(&[&short(0x0008_0000, "UL", &[0; 4]), &S])));
    let data = long(0x0040_A730, "SQ", &item(&join(&[&S, &deep, &barred])));
    let inner = join(&[&deep[..8], &tag(0xFFFE_E000), &S, &tag(0xFFFE_E0DD)]);
    let expected = join(&[&data[..8], &tag(0xFFFE_E000), &S, &inner, &tag(0xFFFE_E0DD)]);
    let streamed = list_mode::stream(&data, &tag(0x0040_A730), 1000);
    assert_eq!(streamed.stream.unwrap(), expected);
}
