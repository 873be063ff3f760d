//! The numbers 1 to 8, each with its accepted neighbour, and the readings (a)
//! to (f).

mod common;
use common::*;
use independent::reading::{read, read_one, One, Reading, Tag};

fn fault(data: &[u8]) -> (u64, u64) {
    let Reading { answer, data_set } = read(data);
    assert_eq!(answer.length, 0);
    assert_eq!(answer.is_accepted(), data_set.is_some());
    place(answer)
}

#[test]
fn number_1() {
    // One UN of 12 + n bytes.
    let full = long(0x0009_0010, "UN", &vec![0; 1_048_576 - 12]);
    assert_eq!(fault(&full), GOOD);
    assert_eq!(fault(&join(&[&full, &[0]])), (1, 0));
    assert_eq!(fault(&[]), GOOD);
}

#[test]
fn number_2_elements() {
    assert_eq!(fault(&A), GOOD);
    for cut in 1..8 {
        assert_eq!(fault(&A[..cut]), (2, 0));
        assert_eq!(fault(&join(&[&A, &B[..cut]])), (2, 10));
    }
    assert_eq!(fault(&A[..9]), (2, 0));
    let long_form = long(0x0009_0010, "UT", &[]);
    assert_eq!(fault(&long_form), GOOD);
    for cut in 8..12 {
        assert_eq!(fault(&long_form[..cut]), (2, 0));
        // (e) even with bad reserved bytes
        let mut bad = long_form.clone();
        bad[6] = 1;
        assert_eq!(fault(&bad[..cut]), (2, 0));
    }
    assert_eq!(fault(&long_header(0x0009_0010, "UT", 0xFFFF_FFFE)), (2, 0));
}

#[test]
fn number_2_items() {
    assert_eq!(fault(&long(SQ, "SQ", &item(&S))), GOOD);
    // The item past the sequence.
    assert_eq!(fault(&long(SQ, "SQ", &join(&[&item_header(12), &S]))), (2, 12));
    // An item header of fewer than 8 bytes.
    assert_eq!(fault(&long(SQ, "SQ", &item_header(0)[..6])), (2, 12));
    // (d) an item not exactly filled: inner header of fewer than 8 bytes
    assert_eq!(fault(&long(SQ, "SQ", &item(&join(&[&S, &[0; 6]])))), (2, 30));
    // (d) inner value past the item, though inside the sequence
    let sequence = long(SQ, "SQ", &join(&[&item(&S[..8]), &item(&[])]));
    assert_eq!(fault(&sequence), (2, 20));
}

#[test]
fn number_2_where_a_delimiter_is_awaited() {
    // (b) the position may equal the data's length
    assert_eq!(fault(&long_header(SQ, "SQ", UNDEFINED)), (2, 12));
    assert_eq!(fault(&long_header(PIXELS, "OB", UNDEFINED)), (2, 12));
    assert_eq!(fault(&join(&[&long_header(SQ, "SQ", 8), &item_header(UNDEFINED)])), (2, 20));
    // (a) a delimiter behind the nearest enclosing defined extent is not seen
    let inner = join(&[&long_header(SQ, "SQ", UNDEFINED)]);
    let outer = join(&[&long(SQ, "SQ", &item(&inner)), &SEQUENCE_END]);
    assert_eq!(fault(&outer), (2, 32));
    let fits = long(SQ, "SQ", &item(&join(&[&inner, &SEQUENCE_END])));
    assert_eq!(fault(&fits), GOOD);
    let open_in_defined = long(SQ, "SQ", &open_item(&S));
    assert_eq!(fault(&open_in_defined), GOOD);
    let behind = join(&[&long(SQ, "SQ", &join(&[&item_header(UNDEFINED), &S])), &ITEM_END]);
    assert_eq!(fault(&behind), (2, 30));
}

#[test]
fn number_3() {
    let delimiter_at_top = join(&[&A, &ITEM_END]);
    assert_eq!(fault(&delimiter_at_top), (3, 10));
    assert_eq!(fault(&join(&[&A, &SEQUENCE_END])), (3, 10));
    assert_eq!(fault(&short(0xFFFD_0001, "CS", &[])), GOOD);
    assert_eq!(fault(&short(0xFFFE_0001, "CS", &[])), (3, 0));
    assert_eq!(fault(&short(0xFFFF_0001, "CS", &[])), GOOD);
    // 3 before 4
    assert_eq!(fault(&join(&[&short(0xFFFF_0001, "CS", &[]), &ITEM_END])), (3, 8));
    // 2.16: "a delimiter where the item or sequence that it would end has a
    // defined length"
    assert_eq!(fault(&long(SQ, "SQ", &join(&[&item(&S), &SEQUENCE_END]))), (3, 30));
    assert_eq!(fault(&long(SQ, "SQ", &item(&join(&[&S, &ITEM_END])))), (3, 30));
    // 2.16: "a delimiter whose length is not 0"
    let mut data = open(SQ, "SQ", &open_item(&S));
    assert_eq!(fault(&data), GOOD);
    data[34] = 2;
    assert_eq!(fault(&data), (3, 30));
    data[34] = 0;
    data[42] = 2;
    assert_eq!(fault(&data), (3, 38));
    // the other delimiter
    assert_eq!(fault(&open(SQ, "SQ", &ITEM_END)), (3, 12));
    let swapped = join(&[&item_header(UNDEFINED), &SEQUENCE_END]);
    assert_eq!(fault(&open(SQ, "SQ", &swapped)), (3, 20));
    // another tag among items and fragments
    assert_eq!(fault(&long(SQ, "SQ", &A)), (3, 12));
    assert_eq!(fault(&open(PIXELS, "OB", &A)), (3, 12));
    assert_eq!(fault(&open(PIXELS, "OB", &ITEM_END)), (3, 12));
    assert_eq!(fault(&open(PIXELS, "OB", &item(&S))), GOOD);
    // (c) 3 before 7
    assert_eq!(fault(&long(SQ, "SQ", &hex("FE FF 0D E0 01 00 00 00"))), (3, 12));
}

#[test]
fn number_4() {
    assert_eq!(fault(&join(&[&A, &B])), GOOD);
    assert_eq!(fault(&join(&[&B, &A])), (4, 10));
    assert_eq!(fault(&join(&[&A, &A])), (4, 10));
    assert_eq!(fault(&short(0x0000_0000, "UL", &[])), GOOD);
    // (f) anew in each item, and the sequence's own tag does not bear on it
    assert_eq!(fault(&long(SQ, "SQ", &join(&[&item(&S), &item(&S)]))), GOOD);
    assert_eq!(fault(&long(SQ, "SQ", &item(&join(&[&S, &S])))), (4, 30));
    assert_eq!(fault(&join(&[&long(SQ, "SQ", &item(&S)), &A])), (4, 30));
    // 4 before 5
    assert_eq!(fault(&join(&[&B, &short(0x0008_0001, "XX", &[])])), (4, 10));
}

#[test]
fn number_5() {
    let short_form = "AE AS AT CS DA DS DT FL FD IS LO LT PN SH SL SS ST TM UI UL US";
    for vr in short_form.split(' ') {
        assert_eq!(fault(&short(0x0009_0010, vr, &[0; 2])), GOOD);
    }
    for vr in "OB OW OF UT UN".split(' ') {
        assert_eq!(fault(&long(0x0009_0010, vr, &[0; 2])), GOOD);
    }
    assert_eq!(fault(&long(0x0009_0010, "SQ", &[])), GOOD);
    for vr in ["OD", "OL", "UC", "UR", "OV", "cs", "  ", "\0\0", "SC"] {
        assert_eq!(fault(&short(0x0009_0010, vr, &[])), (5, 0));
    }
    // 5 before 7
    assert_eq!(fault(&short(0x0009_0010, "XX", &[0])), (5, 0));
}

#[test]
fn number_6() {
    let good = long(0x0009_0010, "OW", &[]);
    assert_eq!(fault(&good), GOOD);
    for place in [6, 7] {
        let mut bad = good.clone();
        bad[place] = 1;
        assert_eq!(fault(&bad), (6, 0));
        // 6 before 7
        bad[8] = 1;
        assert_eq!(fault(&bad), (6, 0));
    }
}

#[test]
fn number_7() {
    assert_eq!(fault(&short(0x0009_0010, "LO", b"ab")), GOOD);
    assert_eq!(fault(&short(0x0009_0010, "LO", b"abc")), (7, 0));
    // 7 before 2
    assert_eq!(fault(&short(0x0009_0010, "LO", b"abc")[..8]), (7, 0));
    // (e) FFFF in the short form is an odd length
    assert_eq!(fault(&hex("09 00 10 00 4C 4F FF FF")), (7, 0));
    assert_eq!(fault(&long(0x0009_0010, "UN", b"abc")), (7, 0));
    for vr in ["OW", "OF", "UT", "UN"] {
        assert_eq!(fault(&open(0x0009_0010, vr, &[])), (7, 0));
    }
    for vr in ["SQ", "OB"] {
        assert_eq!(fault(&open(0x0009_0010, vr, &[])), GOOD);
    }
    // items: odd 7 before 2; undefined is good in SQ
    assert_eq!(fault(&long(SQ, "SQ", &item_header(0))), GOOD);
    assert_eq!(fault(&long(SQ, "SQ", &item_header(1))), (7, 12));
    assert_eq!(fault(&open(SQ, "SQ", &open_item(&[]))), GOOD);
    // 2.18: "A fragment whose length is undefined or odd"
    assert_eq!(fault(&open(PIXELS, "OB", &item_header(0))), GOOD);
    assert_eq!(fault(&open(PIXELS, "OB", &item_header(1))), (7, 12));
    assert_eq!(fault(&open(PIXELS, "OB", &item_header(UNDEFINED))), (7, 12));
    assert_eq!(fault(&open(PIXELS, "OB", &item_header(10))), (2, 12));
}

#[test]
fn number_8() {
    assert_eq!(fault(&nest(16)), GOOD);
    assert_eq!(fault(&nest(17)), (8, 320));
    // (e) at level 16 everything but SQ is good
    let wrap = |innermost: Vec<u8>| {
        let mut data = innermost;
        for _ in 0..16 {
            data = long(SQ, "SQ", &item(&data));
        }
        data
    };
    assert_eq!(fault(&wrap(S.to_vec())), GOOD);
    assert_eq!(fault(&wrap(open(PIXELS, "OB", &item(&S)))), GOOD);
    assert_eq!(fault(&wrap(long(SQ, "UN", &nest(1)))), GOOD);
    assert_eq!(fault(&wrap(open(SQ, "SQ", &[]))), (8, 320));
    // (e) 8 after 7 and before 2.11i: "the value ends past the extent"
    assert_eq!(fault(&wrap(long_header(SQ, "SQ", 1))), (7, 320));
    assert_eq!(fault(&wrap(long_header(SQ, "SQ", 2))), (8, 320));
}

/// Number, position, and of an element its tag, the offset and length of its value
/// and the offset behind it.
type Said = (u64, u64, Option<(u32, usize, usize, usize)>);

fn one(data: &[u8], left: u32) -> Said {
    let One { answer, element } = read_one(data, left);
    assert_eq!(answer.length, 0);
    let element = element.map(|element| {
        let Tag(tag) = element.tag;
        (tag, element.value_offset, element.value.len(), element.offset + element.bytes.len())
    });
    (answer.number, answer.position, element)
}

#[test]
fn one_element() {
    assert_eq!(one(&[], 16), (0, 0, None));
    assert_eq!(one(&A[..7], 16), (2, 0, None));
    assert_eq!(one(&join(&[&A, &A]), 0), (0, 0, Some((0x0008_0060, 8, 2, 10))));
    assert_eq!(one(&open(SQ, "SQ", &open_item(&S)), 1), (0, 0, Some((SQ, 12, 26, 46))));
    assert_eq!(one(&open(SQ, "SQ", &open_item(&SEQUENCE_END)), 1), (3, 20, None));
    assert_eq!(one(&open(PIXELS, "OB", &item(&S)), 0), (0, 0, Some((PIXELS, 12, 18, 38))));
    assert_eq!(one(&ITEM_END, 16), (3, 0, None));
    // as the first of the data set by itself
    for data in [&long(SQ, "SQ", &item(&S)), &long_header(SQ, "SQ", 2), &nest(17)] {
        assert_eq!(one(data, 16).0, fault(data).0);
        assert_eq!(one(data, 16).1, fault(data).1);
    }
}

#[test]
fn one_element_by_its_levels() {
    for left in 0..=16 {
        let count = left as usize;
        if count > 0 {
            let end = nest(count).len();
            assert_eq!(one(&nest(count), left), (0, 0, Some((SQ, 12, end - 12, end))));
        }
        assert_eq!(one(&nest(count + 1), left), (8, 20 * u64::from(left), None));
    }
    for left in [17, u32::MAX] {
        assert_eq!(one(&nest(16), left).0, 0);
        assert_eq!(one(&nest(17), left), (8, 320, None));
    }
    // as deep as 1,048,576 bytes can be
    let deepest = [long_header(SQ, "SQ", UNDEFINED), item_header(UNDEFINED)].concat();
    assert_eq!(one(&deepest.repeat(52_428), u32::MAX), (8, 320, None));
    // no number 1
    let large = long(0x0009_0010, "UN", &vec![0; 1_048_576]);
    assert_eq!(one(&large, 16), (0, 0, Some((0x0009_0010, 12, 1_048_576, 1_048_588))));
}
