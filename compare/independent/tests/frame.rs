//! The stream program: number 24, what is printed, and the reading (l).

mod common;
use common::*;
use independent::frame;

fn text(input: &[u8]) -> String {
    String::from_utf8(frame::run(input).text).unwrap()
}

fn framed(list: &[u8], data: &[u8]) -> Vec<u8> {
    let counted = |bytes: &[u8]| join(&[&(bytes.len() as u32).to_be_bytes(), bytes]);
    join(&[&[1], &counted(list), &counted(data)])
}

/// (0009,0010) coded in this many bytes.
fn element(bytes: usize) -> Vec<u8> {
    long(0x0009_0010, "OW", &vec![0xAB; bytes - 12])
}

#[test]
fn number_24() {
    let good = framed(&tag(0x0008_0060), &A);
    assert_eq!(text(&good), "0 0 10\n08006000435302004354\n");
    for cut in 0..good.len() {
        assert_eq!(text(&good[..cut]), "24 0 0\n");
    }
    assert_eq!(text(&join(&[&good, &[0]])), "24 0 0\n");
    let mut other_version = good.clone();
    other_version[0] = 2;
    assert_eq!(text(&other_version), "24 0 0\n");
    assert_eq!(text(&framed(&[], &[])), "10 0 0\n");
    assert_eq!(text(&framed(&tag(0x0008_0060), &B)), "13 0 0\n");
}

#[test]
fn the_most_input() {
    // 65,536 bytes of input serve (here an odd data set, so 2 at its last
    // byte), one more is 24.
    let list = tag(0x0009_0010);
    let full = framed(&list, &join(&[&element(65_522), &[0]]));
    assert_eq!(full.len(), 65_536);
    assert_eq!(text(&full), "2 65522 0\n");
    let over = framed(&list, &element(65_524));
    assert_eq!(over.len(), 65_537);
    assert_eq!(text(&over), "24 0 0\n");
    assert!(text(&framed(&list, &element(65_522))).starts_with("0 0 65522\n0900"));
}

#[test]
fn lines_of_32_bytes() {
    let input = framed(&tag(0x0009_0010), &element(66));
    let expected = format!(
        "0 0 66\n090010004f57000036000000{}\n{}\nabab\n",
        "ab".repeat(20),
        "ab".repeat(32)
    );
    assert_eq!(text(&input), expected);
}
