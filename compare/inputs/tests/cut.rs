//! examples/cut.sh and the lines of README that cut a DICOM file, held to `part10`.

use inputs::coding::{code, Element};
use inputs::part10;
use std::fs;
use std::path::{Path, PathBuf};
use std::process::Command;

const README: &str = include_str!("../../../README.md");
const SIGNED: &[u8] = include_bytes!("../../../examples/signed.data");
const EXPLICIT: &str = "1.2.840.10008.1.2.1";
const RLE: &str = "1.2.840.10008.1.2.5";

fn temporary(name: &str) -> PathBuf {
    Path::new(env!("CARGO_TARGET_TMPDIR")).join(name)
}

/// Runs the script on these bytes: its status, what it prints and what it complains
/// of, and the data set that it writes.
fn cut(name: &str, file: &[u8]) -> (i32, String, String, Option<Vec<u8>>) {
    let (from, to) = (temporary(&format!("{name}.dcm")), temporary(&format!("{name}.data")));
    fs::write(&from, file).unwrap();
    let _ = fs::remove_file(&to);
    let script = concat!(env!("CARGO_MANIFEST_DIR"), "/../../examples/cut.sh");
    let ran = Command::new("sh").arg(script).args([&from, &to]).output().unwrap();
    let text = |bytes| String::from_utf8(bytes).unwrap().replace(from.to_str().unwrap(), "FILE");
    (ran.status.code().unwrap(), text(ran.stdout), text(ran.stderr), fs::read(&to).ok())
}

/// Runs README's lines on these bytes: what they print, with the UID at last, and the data set.
fn cut_by_lines(name: &str, file: &[u8]) -> (String, Vec<u8>) {
    let folder = temporary(name);
    fs::create_dir_all(&folder).unwrap();
    fs::write(folder.join("STUDY.dcm"), file).unwrap();
    let lines = README.lines().map(str::trim).skip_while(|line| !line.starts_with("[ \"$(od")).take(4);
    let script = lines.chain(["echo \"$uid\""]).collect::<Vec<_>>().join("\n");
    let ran = Command::new("sh").arg("-c").arg(script).current_dir(&folder).output().unwrap();
    (String::from_utf8(ran.stdout).unwrap(), fs::read(folder.join("study.data")).unwrap())
}

fn file(meta: &[u8], data: &[u8]) -> Vec<u8> {
    [&[0; 128][..], b"DICM", meta, data].concat()
}

fn syntax(uid: &str) -> Element {
    Element::text(0x0002_0010, b"UI", uid, 0)
}

/// Group 0002 with its length, a long form before the UID and one behind it.
fn whole_group(uid: &str) -> Vec<u8> {
    let presentation_address = b"\x02\0\x26\0UR\0\0\x04\0\0\0host";
    let version = Element::bytes(0x0002_0001, b"OB", &[0, 1]);
    let class = Element::text(0x0002_0002, b"UI", "1.2.840.10008.5.1.4.1.1.7", 0);
    let rest = [code(&[version, class, syntax(uid)]).bytes, presentation_address.to_vec()].concat();
    let length = Element::bytes(0x0002_0000, b"UL", &(rest.len() as u32).to_le_bytes());
    [code(&[length]).bytes, rest].concat()
}

#[test]
fn the_data_set_and_its_transfer_syntax() {
    for (name, meta, uid, data) in [
        ("whole", whole_group(EXPLICIT), EXPLICIT, SIGNED),
        ("syntax-alone", code(&[syntax(EXPLICIT)]).bytes, EXPLICIT, SIGNED),
        ("even-uid", whole_group("1.2.840.10008.1.2.4.90"), "1.2.840.10008.1.2.4.90", SIGNED),
        ("rle", whole_group(RLE), RLE, SIGNED),
        ("no-data", whole_group(EXPLICIT), EXPLICIT, &[][..]),
        ("two-bytes", whole_group(EXPLICIT), EXPLICIT, &[8, 0][..]),
    ] {
        let file = file(&meta, data);
        let read = part10::read(&file).unwrap();
        assert_eq!((read.transfer_syntax, read.data), (uid, data), "{name}");
        let written = (0, format!("{uid}\n"), String::new(), Some(data.to_vec()));
        assert_eq!(cut(name, &file), written, "{name}");
        // without its length README's lines do not know where group 0002 ends, and say so
        if name == "syntax-alone" {
            assert!(cut_by_lines(name, &file).0.starts_with("no DICM"), "{name}");
        } else {
            assert_eq!(cut_by_lines(name, &file), (format!("{uid}\n"), data.to_vec()), "{name}");
        }
    }
}

#[test]
fn files_that_are_not_cut() {
    let length = code(&[Element::bytes(0x0002_0000, b"UL", &[0; 4])]).bytes;
    for (name, file, fault) in [
        ("empty", Vec::new(), "DICM does not stand at byte 128"),
        ("data-set-alone", SIGNED.to_vec(), "DICM does not stand at byte 128"),
        ("no-syntax", file(&length, SIGNED), "group 0002 has no transfer syntax UID, (0002,0010)"),
        ("no-group", file(&[], SIGNED), "group 0002 has no transfer syntax UID, (0002,0010)"),
    ] {
        assert!(part10::read(&file).is_err());
        assert_eq!(cut(name, &file), (2, String::new(), format!("cut: FILE: {fault}\n"), None), "{name}");
    }
}

/// Wherever the group is cut off, both say the same.
#[test]
fn group_0002_breaks_off() {
    let whole = file(&whole_group(EXPLICIT), &[]);
    for end in 128 + 4..whole.len() {
        let (status, out, _, data) = cut("cut-off", &whole[..end]);
        match part10::read(&whole[..end]) {
            Ok(file) => {
                assert_eq!((status, out), (0, format!("{EXPLICIT}\n")), "{end}");
                assert_eq!(data.as_deref(), Some(file.data), "{end}");
            }
            Err(_) => assert_eq!((status, out.as_str(), data), (2, "", None), "{end}"),
        }
    }
}
