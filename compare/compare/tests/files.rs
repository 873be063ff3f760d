//! The program's command `files`, on DICOM files made of the samples of examples/.

use std::fs;
use std::path::Path;
use std::process::Command;

const SIGNED: &[u8] = include_bytes!("../../../examples/signed.data");
const EXPLICIT: &str = "1.2.840.10008.1.2.1\0";
const IMPLICIT: &str = "1.2.840.10008.1.2\0";

/// A DICOM file of this transfer syntax and data set; its name.
fn file(name: &str, uid: &str, data: &[u8]) -> String {
    let meta = [&b"\x02\0\x10\0UI"[..], &[uid.len() as u8, 0], uid.as_bytes()].concat();
    let file = Path::new(env!("CARGO_TARGET_TMPDIR")).join(name);
    fs::write(&file, [&[0; 128][..], b"DICM", &meta, data].concat()).unwrap();
    file.to_str().unwrap().to_string()
}

/// Status and lines of `compare files`.
fn files(names: &[&str]) -> (i32, Vec<String>) {
    let ran = Command::new(env!("CARGO_BIN_EXE_compare")).arg("files").args(names).output().unwrap();
    let lines = String::from_utf8(ran.stdout).unwrap().lines().map(str::to_string).collect();
    (ran.status.code().unwrap(), lines)
}

/// What it says of a signed file: the transfer syntax, where the data set
/// starts, and the digest of the signature's stream.
#[test]
fn the_signed_sample() {
    let name = file("signed.dcm", EXPLICIT, SIGNED);
    let (status, lines) = files(&[&name]);
    assert_eq!(status, 0);
    let start = 128 + 4 + 8 + EXPLICIT.len();
    let length = SIGNED.len();
    assert_eq!(
        lines[..2],
        [name, format!("  transfer syntax 1.2.840.10008.1.2.1, data set of {length} bytes from byte {start} on")]
    );
    let signature = lines.iter().position(|line| line.starts_with("  signature 0: 0 0 ")).unwrap();
    let digest = include_str!("../../../examples/signed.sha256").trim_end();
    assert!(lines[signature + 1].ends_with(&format!("SHA-256 {digest}")), "{lines:?}");
    assert_eq!(lines.last().unwrap(), "1 of 1 compared");
}

#[test]
fn files_that_are_not_compared() {
    let compared = file("compared.dcm", EXPLICIT, SIGNED);
    let implicit = file("implicit.dcm", IMPLICIT, SIGNED);
    let missing = format!("{compared}.missing");
    for (names, wanted, said) in [
        (vec![&compared, &implicit], 0, format!("1 of 2 compared, not: {implicit}")),
        (vec![&implicit], 2, format!("0 of 1 compared, not: {implicit}")),
        (vec![&missing, &compared], 2, format!("1 of 2 compared, not: {missing}")),
    ] {
        let names: Vec<&str> = names.into_iter().map(String::as_str).collect();
        let (status, lines) = files(&names);
        assert_eq!((status, lines.last()), (wanted, Some(&said)));
    }
    let (_, lines) = files(&[&implicit]);
    assert_eq!(lines[1], "  skipped: transfer syntax 1.2.840.10008.1.2 is not in Explicit VR Little Endian");
}
