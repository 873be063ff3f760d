//! The numbers 10 to 12, each with its accepted neighbour, and the readings (g)
//! and (h).

mod common;
use common::*;
use independent::list_mode;
use independent::tag_list::{read_list, TagList};

fn said(list: &[u8]) -> (u64, u64) {
    let TagList { answer, tags } = read_list(list);
    assert_eq!(answer.length, 0);
    assert_eq!(answer.is_accepted(), tags.is_some());
    place(answer)
}

#[test]
fn number_10() {
    let rising = |count: u32| list(&(0..count).map(|i| 0x0009_0001 + i).collect::<Vec<u32>>());
    assert_eq!(said(&[]), (10, 0));
    assert_eq!(said(&rising(1)), GOOD);
    assert_eq!(said(&rising(1)[..3]), (10, 0));
    assert_eq!(said(&rising(1024)), GOOD);
    assert_eq!(said(&rising(1025)), (10, 0));
}

#[test]
fn number_11() {
    // (g) 11 at the later tag, over the whole list before 12
    assert_eq!(said(&list(&[0x0009_0002, 0x0009_0002])), (11, 1));
    assert_eq!(said(&list(&[0x0000_0000, 0x0009_0002, 0x0009_0001])), (11, 2));
}

#[test]
fn number_12() {
    for barred in [
        0x0000_0001, 0x0007_FFFF, 0x0008_0000, 0x0008_0001, 0x0009_0000, 0x4FFE_0001, 0xFFFA_0001,
        0xFFFA_FFFA, 0xFFFC_FFFC, 0xFFFE_0000, 0xFFFE_E00D, 0xFFFF_0000,
    ] {
        assert_eq!(said(&list(&[barred])), (12, 0), "{barred:08x}");
        let second = if barred > 0x0009_0010 { (12, 1) } else { (11, 1) };
        assert_eq!(said(&list(&[0x0009_0010, barred])), second, "{barred:08x}");
    }
    for good in [
        0x0008_0002, 0x4FFE_0002, 0x4FFF_0001, 0xFFF9_0001, 0xFFFB_0001, 0xFFFC_FFFB, 0xFFFC_FFFD,
        0xFFFE_E000, 0xFFFE_E00C, 0xFFFE_E0DD, 0xFFFF_FFFF,
    ] {
        assert_eq!(said(&list(&[good])), GOOD, "{good:08x}");
        // (h) another FFFE tag ends in 13
        assert_eq!(list_mode::stream(&[], &list(&[good]), 0).answer.number, 13);
    }
}
