//! examples/check.c, compiled and run on the samples beside it.

mod cc;

use std::fs;
use std::path::PathBuf;
use std::process::Command;
use std::sync::OnceLock;

const UID: &str = "1.2.840.10008.1.2.1";
const SIGNED: &[u8] = include_bytes!("../../../examples/signed.data");
const SAME: &str = "The digest is the expected one.\n";
const DIFFERS: &str = "The digest differs from the expected one.\n";
const OTHER_ENCODING: &str = "The signature was made for another encoding of the study.";

fn digest() -> &'static str {
    include_str!("../../../examples/signed.sha256").trim_end()
}

/// A file of the folder examples/.
fn example(name: &str) -> String {
    format!("{}/../../examples/{name}", env!("CARGO_MANIFEST_DIR"))
}

/// Runs the program: its status, standard output and standard error.
fn check(arguments: &[&str]) -> (i32, String, String) {
    static PROGRAM: OnceLock<PathBuf> = OnceLock::new();
    let program = PROGRAM.get_or_init(|| {
        cc::compiled("../../examples/check.c", &cc::folder("check")).unwrap_or_else(|said| panic!("{said}"))
    });
    let ran = Command::new(program).args(arguments).output().unwrap();
    let text = |bytes| String::from_utf8(bytes).unwrap();
    (ran.status.code().unwrap(), text(ran.stdout), text(ran.stderr))
}

/// A file with these bytes; its name.
fn written(name: &str, data: &[u8]) -> String {
    let file = cc::folder("check-files").join(name);
    fs::write(&file, data).unwrap();
    file.to_str().unwrap().to_string()
}

/// Runs it on these bytes.
fn check_bytes(name: &str, data: &[u8]) -> (i32, String, String) {
    check(&[&written(name, data), UID, digest()])
}

fn printed(status: i32, out: &str) -> (i32, String, String) {
    (status, out.to_string(), String::new())
}

fn refused(number: u64, position: u64, sentence: &str) -> (i32, String, String) {
    printed(1, &format!("Refused, number {number}, position {position}: {sentence}\n"))
}

fn complained(text: &str) -> (i32, String, String) {
    (2, String::new(), format!("{text}\n"))
}

/// The signed sample with one byte of the value of an element altered.
fn altered_in(header: &[u8]) -> Vec<u8> {
    let found: Vec<_> = (0..SIGNED.len()).filter(|&at| SIGNED[at..].starts_with(header)).collect();
    let [start] = found[..] else { panic!("{header:?} at {found:?}") };
    let mut data = SIGNED.to_vec();
    data[start + 20] ^= 1;
    data
}

#[test]
fn the_samples() {
    assert_eq!(check(&[&example("signed.data"), UID, digest()]), printed(0, SAME));
    assert_eq!(check(&[&example("signed.data"), UID, &digest().to_uppercase()]), printed(0, SAME));
    assert_eq!(check(&[&example("altered.data"), UID, digest()]), printed(1, DIFFERS));
    assert_eq!(check(&[&example("signed.data"), UID, &"0".repeat(64)]), printed(1, DIFFERS));
}

#[test]
fn what_the_stream_does_not_hold_may_be_altered() {
    let (comments, certificate, value) = (b"\x10\0\0\x40LT", b"\0\x04\x15\x01OB", b"\0\x04\x20\x01OB");
    for (name, header) in [("comments", comments), ("certificate", certificate), ("value", value)] {
        assert_eq!(check_bytes(name, &altered_in(header)), printed(0, SAME), "{name}");
    }
    assert_eq!(check_bytes("uid", &altered_in(b"\x08\0\x18\0UI")), printed(1, DIFFERS));
}

#[test]
fn another_transfer_syntax() {
    for uid in ["1.2.840.10008.1.2.4.70", "1.2.840.10008.1.2", ""] {
        assert_eq!(check(&[&example("signed.data"), uid, digest()]), refused(21, 0, OTHER_ENCODING), "{uid}");
    }
}

/// The parameters are not in the stream, so that the sample can be said to be in RLE.
#[test]
fn the_transfer_syntax_of_a_compressed_study() {
    let rle = "1.2.840.10008.1.2.5";
    let at = SIGNED.windows(UID.len()).position(|bytes| bytes == UID.as_bytes()).unwrap();
    let mut data = SIGNED.to_vec();
    data[at..at + rle.len()].copy_from_slice(rle.as_bytes());
    let file = written("rle", &data);
    assert_eq!(check(&[&file, rle, digest()]), printed(0, SAME));
    assert_eq!(check(&[&file, UID, digest()]), refused(21, 0, OTHER_ENCODING));
}

#[test]
fn data_sets_that_are_refused() {
    let most = vec![0; 1_048_576];
    assert_eq!(check_bytes("most", &most), refused(5, 0, "The study has an element of an unknown type."));
    let more = vec![0; 1_048_577];
    assert_eq!(check_bytes("more", &more), refused(1, 0, "The study is larger than this check takes."));
    let cut = &SIGNED[..SIGNED.len() - 1];
    let signatures = SIGNED.windows(6).position(|bytes| bytes == b"\xFA\xFF\xFA\xFFSQ").unwrap();
    let sentence = "The study is cut short, or a length in it is too large.";
    assert_eq!(check_bytes("cut", cut), refused(2, signatures as u64, sentence));
    assert_eq!(check_bytes("none", &[]), refused(18, 0, "The study has no such signature."));
}

#[test]
fn digests_that_are_none() {
    let other_letter = digest().replacen(|_: char| true, "g", 1);
    let spaced = format!(" {}", &digest()[1..]);
    let longer = format!("{}0", digest());
    for hex in ["", "3f..9a", &digest()[1..], &other_letter, &spaced, &longer] {
        let text = format!("check: the digest is not 64 hex digits: {hex}");
        assert_eq!(check(&[&example("signed.data"), UID, hex]), complained(&text));
    }
}

#[test]
fn files_that_are_none() {
    for (name, fault) in [("missing.data", "cannot be opened: "), ("", "cannot be read: ")] {
        let name = example(name);
        let (status, out, error) = check(&[&name, UID, digest()]);
        assert_eq!((status, out.as_str()), (2, ""));
        assert!(error.starts_with(&format!("check: {name} {fault}")), "{error}");
    }
}

#[test]
fn usage() {
    let usage = complained("usage: check DATASET UID DIGEST");
    let file = example("signed.data");
    let words = [file.as_str(), UID, digest(), digest()];
    for count in [0, 1, 2, 4] {
        assert_eq!(check(&words[..count]), usage);
    }
}
