//! The examples 15.1 to 15.11 of docs/RULES.md.

mod common;
use common::*;
use independent::{frame, list_mode, Answer, Streamed};

const ROOM: usize = 65_536;

fn stream(data: &[u8], list: &[u8]) -> Streamed {
    list_mode::stream(data, list, ROOM)
}

fn gives(streamed: Streamed, expected: &[u8]) {
    let answer = Answer::accepted(expected.len());
    assert_eq!(streamed, Streamed { answer, stream: Some(expected.to_vec()) });
}

fn refused(streamed: Streamed, number: u64, position: usize) {
    let answer = Answer::refused_at(number, position);
    assert_eq!(streamed, Streamed { answer, stream: None });
}

fn example_5() -> Vec<u8> {
    join(&[&hex("40 00 30 A7 53 51 00 00 12 00 00 00, FE FF 00 E0 0A 00 00 00"), &S])
}

fn stream_of_5() -> Vec<u8> {
    join(&[&hex("40 00 30 A7 53 51 00 00, FE FF 00 E0"), &S, &hex("FE FF DD E0")])
}

#[test]
fn example_1() {
    gives(stream(&join(&[&A, &B]), &hex("08 00 60 00")), &A);
    let input = join(&[&hex("01 00 00 00 04 08 00 60 00 00 00 00 14"), &A, &B]);
    assert_eq!(frame::run(&input).text, b"0 0 10\n08006000435302004354\n");
}

#[test]
fn example_2() {
    refused(stream(&join(&[&A, &B]), &tag(0x0008_0061)), 13, 0);
}

#[test]
fn example_3() {
    refused(stream(&join(&[&B, &A]), &tag(0x0010_0010)), 4, 10);
}

#[test]
fn example_4() {
    let data = hex("10 00 10 00 50 4E 03 00 4C 69 75");
    refused(stream(&data, &tag(0x0010_0010)), 7, 0);
}

#[test]
fn example_5_defined_lengths() {
    let data = example_5();
    assert_eq!(data.len(), 30);
    assert_eq!(stream_of_5().len(), 26);
    gives(stream(&data, &hex("40 00 30 A7")), &stream_of_5());
}

#[test]
fn example_6_undefined_lengths() {
    let data = open(0x0040_A730, "SQ", &open_item(&S));
    assert_eq!(data.len(), 46);
    gives(stream(&data, &hex("40 00 30 A7")), &stream_of_5());
}

#[test]
fn example_7_no_item() {
    let expected = hex("40 00 30 A7 53 51 00 00 FE FF DD E0");
    gives(stream(&long(0x0040_A730, "SQ", &[]), &hex("40 00 30 A7")), &expected);
    gives(stream(&open(0x0040_A730, "SQ", &[]), &hex("40 00 30 A7")), &expected);
}

#[test]
fn example_8_output_room() {
    let list = hex("40 00 30 A7");
    gives(list_mode::stream(&example_5(), &list, 26), &stream_of_5());
    refused(list_mode::stream(&example_5(), &list, 25), 16, 0);
}

#[test]
fn example_9_fragments() {
    let header = hex("E0 7F 10 00 4F 42 00 00 FF FF FF FF");
    let two = join(&[&header, &item(&hex("AA BB")), &item(&hex("CC DD")), &SEQUENCE_END]);
    let one = join(&[&header, &item(&hex("AA BB FE FF 00 E0 CC DD")), &SEQUENCE_END]);
    let expected =
        hex("E0 7F 10 00 4F 42 00 00 FE FF 00 E0 AA BB FE FF 00 E0 CC DD FE FF DD E0");
    assert_eq!(expected.len(), 24);
    gives(stream(&two, &hex("E0 7F 10 00")), &expected);
    gives(stream(&one, &hex("E0 7F 10 00")), &expected);
}

#[test]
fn example_10_empty() {
    refused(stream(&[], &tag(0x0008_0060)), 13, 0);
    refused(stream(&[], &[]), 10, 0);
    refused(stream(&A, &[]), 10, 0);
}

#[test]
fn example_11_levels() {
    let fifteen = nest(16);
    assert_eq!(stream(&fifteen, &tag(0x0040_A730)).answer.number, 0);
    // Each enclosing sequence puts 12 + 8 header bytes before the next.
    refused(stream(&nest(17), &tag(0x0040_A730)), 8, 16 * 20);
}
