//! Lookups, and the reading (k).

mod common;
use common::*;
use independent::reading::Tag;
use independent::{lookup, Answer};

#[test]
fn lookups() {
    let data = join(&[
        &A,
        &open(SQ, "SQ", &open_item(&S)),
        &open(PIXELS, "OB", &item(b"ab")),
        &short(0x7FE1_0010, "LO", &[]),
    ]);
    let at = |t: u32| {
        let found = lookup::lookup(&data, Tag(t));
        assert_eq!(found.answer, Answer::accepted(0));
        assert!(data[found.offset..].starts_with(found.value));
        (found.stands, found.offset, found.value.len())
    };
    assert_eq!(at(0x0008_0060), (true, 8, 2));
    assert_eq!(at(SQ), (true, 22, 26));
    assert_eq!(at(PIXELS), (true, 68, 10));
    assert_eq!(at(0x7FE1_0010), (true, 94, 0));
    assert_eq!(at(0x0008_0100), (false, 94, 0));
    // (k)
    let refused_set = join(&[&A, &[0]]);
    let refused = lookup::lookup(&refused_set, Tag(0x0008_0060));
    assert_eq!(refused.answer, Answer::refused_at(2, 10));
    assert_eq!((refused.stands, refused.offset, refused.value.len()), (false, 11, 0));
}
