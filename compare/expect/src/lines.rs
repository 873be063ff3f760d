//! What is printed for a case, by the independent implementation.

use crate::case::{write_state, Case, Expected};
use crate::spelling::{write_hex, write_tag};
use independent::lookup::{self, Lookup};
use independent::reading::One;
use independent::sha256::{sha256, Finished, RunningDigest};
use independent::{frame, list_mode, reading, signature_mode, Answer, Checked, Streamed, Verdict};

/// What is printed for one line of the case file.
pub fn expected_lines(line: &[u8]) -> Vec<u8> {
    if line.is_empty() || line[0] == b'#' {
        return Vec::new();
    }
    let fields: Vec<&[u8]> = line.split(|&byte| byte == b' ').collect();
    let mut out = fields[0].to_vec();
    match Case::read(&fields[1..]) {
        Some(case) => out.extend_from_slice(&printed(&case)),
        None => out.extend_from_slice(b" ?\n"),
    }
    out
}

/// What is printed behind the name.
fn printed(case: &Case) -> Vec<u8> {
    match case {
        Case::Read { data } => line(place(reading::read(data).answer)),
        Case::One { left, data } => one_line(reading::read_one(data, *left)),
        Case::Lookup { tag, data } => lookup_line(lookup::lookup(data, *tag)),
        Case::List { room, list, data } => stream_line(list_mode::stream(data, list, *room)),
        Case::ListCheck { room, expected, list, data } => {
            let expected = expected_digest(expected, || list_mode::stream(data, list, *room));
            check_line(list_mode::check(data, list, &expected, *room))
        }
        Case::Signature { room, uid, which, data } => {
            stream_line(signature_mode::stream(data, uid, *which, *room))
        }
        Case::SignatureCheck { room, expected, uid, which, data } => {
            let expected =
                expected_digest(expected, || signature_mode::stream(data, uid, *which, *room));
            check_line(signature_mode::check(data, uid, *which, &expected, *room))
        }
        Case::ListMeasure { list, data } => line(list_mode::measure(data, list).to_string()),
        Case::SignatureMeasure { uid, which, data } => {
            line(signature_mode::measure(data, uid, *which).to_string())
        }
        Case::Frame { input } => [b"\n".to_vec(), frame::run(input).text].concat(),
        Case::Digest { parts } => {
            let fed = parts
                .iter()
                .fold(RunningDigest::start(), |running, part| running.feed(part).next);
            finished_line(fed.finish())
        }
        Case::Feed { state, bytes } => {
            let fed = state.feed(bytes);
            line(format!("{} {}", fed.answer.number, write_state(&fed.next)))
        }
        Case::Finish { state } => finished_line(state.finish()),
    }
}

/// The expected digest as bytes.
pub fn expected_digest(expected: &Expected, stream: impl FnOnce() -> Streamed) -> Vec<u8> {
    match expected {
        Expected::Bytes(bytes) => bytes.clone(),
        Expected::RightDigest => match stream().stream {
            Some(stream) => sha256(&stream).to_vec(),
            None => vec![0; 32],
        },
    }
}

/// The answer of a reading: number and position.
fn place(answer: Answer) -> String {
    format!("{} {}", answer.number, answer.position)
}

/// The line of `one`.
fn one_line(one: One) -> Vec<u8> {
    let Some(element) = one.element else {
        return line(if one.answer.is_accepted() { "end".to_string() } else { place(one.answer) });
    };
    line(format!(
        "0 {} {} {} {} {}",
        write_tag(element.tag),
        String::from_utf8_lossy(&element.vr),
        element.value_offset,
        element.value.len(),
        element.offset + element.bytes.len()
    ))
}

/// The line of `lookup`.
fn lookup_line(found: Lookup) -> Vec<u8> {
    let stands = if found.stands { "yes" } else { "no" };
    let head = format!("{} {stands} {}", place(found.answer), found.value.len());
    line_with_hex(head, found.value)
}

/// The line of `list` and `signature`.
fn stream_line(streamed: Streamed) -> Vec<u8> {
    line_with_hex(streamed.answer.to_string(), streamed.stream.as_deref().unwrap_or(&[]))
}

/// The line of `list-check` and `signature-check`.
fn check_line(checked: Checked) -> Vec<u8> {
    let verdict = match checked.verdict {
        Verdict::Neither => "neither",
        Verdict::Same => "same",
        Verdict::Differs => "differs",
    };
    line(format!("{} {verdict}", checked.answer))
}

/// The line of `digest` and `finish`.
fn finished_line(finished: Finished) -> Vec<u8> {
    line_with_hex(finished.answer.number.to_string(), &finished.digest)
}

/// `head`, then a space and the bytes in lower case hex where there are any.
fn line_with_hex(head: String, bytes: &[u8]) -> Vec<u8> {
    if bytes.is_empty() {
        return line(head);
    }
    line(format!("{head} {}", write_hex(bytes)))
}

fn line(fields: String) -> Vec<u8> {
    format!(" {fields}\n").into_bytes()
}

#[cfg(test)]
mod tests {
    use super::expected_lines;

    fn says(line: &str, expected: &str) {
        let out = expected_lines(line.as_bytes());
        assert_eq!(String::from_utf8(out).unwrap(), expected, "{line}");
    }

    const A: &str = "08006000435302004354";
    const B: &str = "10001000504E02004C69";
    const DIGEST_OF_NOTHING: &str =
        "e3b0c44298fc1c149afbf4c8996fb92427ae41e4649b934ca495991b7852b855";

    #[test]
    fn lines_without_a_case_print_nothing() {
        says("", "");
        says("# a read 00", "");
    }

    #[test]
    fn each_kind() {
        says("r read -", "r 0 0\n");
        says("r read 00", "r 2 0\n");
        says("r read [00*1048577]", "r 1 0\n");
        says(&format!("l lookup 00080060 {A}{B}"), "l 0 0 yes 2 4354\n");
        says(&format!("l lookup 00080061 {A}{B}"), "l 0 0 no 0\n");
        says("l lookup 00080060 0800600043530000", "l 0 0 yes 0\n");
        says(&format!("l lookup 00080060 {A}{A}"), "l 4 10 no 0\n");
        says(&format!("s list 10 08006000 {A}{B}"), &format!("s 0 0 10 {}\n", A.to_lowercase()));
        says(&format!("s list 9 08006000 {A}{B}"), "s 16 0 0\n");
        says(&format!("c list-check 10 sha256 08006000 {A}"), "c 0 0 10 same\n");
        says(&format!("c list-check 10 [00*32] 08006000 {A}"), "c 0 0 10 differs\n");
        says(&format!("c list-check 10 - 08006000 {A}"), "c 9 0 0 neither\n");
        says(&format!("c list-check 9 sha256 08006000 {A}"), "c 16 0 0 neither\n");
        says("g signature 0 - none -", "g 18 0 0\n");
        says("g signature-check 0 sha256 - 0 -", "g 18 0 0 neither\n");
        says("f frame 02", "f\n24 0 0\n");
        says(
            &format!("f frame 01000000040800600000000014{A}{B}"),
            "f\n0 0 10\n08006000435302004354\n",
        );
        says("d digest -", &format!("d 0 {DIGEST_OF_NOTHING}\n"));
        says("d digest - - [61*0]", &format!("d 0 {DIGEST_OF_NOTHING}\n"));
        says(
            "d digest 61 [62*1]63",
            "d 0 ba7816bf8f01cfea414140de5dae2223b00361a396177a9cb410ff61f20015ad\n",
        );
        let words = "6a09e667bb67ae853c6ef372a54ff53a510e527f9b05688c1f83d9ab5be0cd19";
        let waiting = format!("61{}", "00".repeat(63));
        says(
            &format!("e feed {words} [00*64] 0 0 61"),
            &format!("e 0 {words} {waiting} 1 1\n"),
        );
        says(
            &format!("e feed {words} {waiting} 2 1 61"),
            &format!("e 25 {words} {waiting} 2 1\n"),
        );
        says(&format!("e finish {words} [00*64] 0 0"), &format!("e 0 {DIGEST_OF_NOTHING}\n"));
        says(&format!("e finish {words} [00*64] 1 0"), &format!("e 25 {}\n", "00".repeat(32)));
    }

    /// (0040,A730) SQ, its length undefined, and the header of an item likewise.
    const OPEN: &str = "400030A753510000FFFFFFFFFEFF00E0FFFFFFFF";
    const CLOSE: &str = "FEFF0DE000000000FEFFDDE000000000";

    #[test]
    fn one_element() {
        says("o one 16 -", "o end\n");
        says("o one 0 -", "o end\n");
        says("o one 0 [00*0]", "o end\n");
        says(&format!("o one 16 {A}"), "o 0 00080060 CS 8 2 10\n");
        says(&format!("o one 0 {A}"), "o 0 00080060 CS 8 2 10\n");
        says("o one 1 E07F10004F570000[00*4]", "o 0 7fe00010 OW 12 0 12\n");
        says("o one 1 FFFFFFFF554E000004000000[AB*4]", "o 0 ffffffff UN 12 4 16\n");
        // what stands behind is not looked at
        says(&format!("o one 16 {A}{A}"), "o 0 00080060 CS 8 2 10\n");
        says(&format!("o one 16 {A}00"), "o 0 00080060 CS 8 2 10\n");
        says(&format!("o one 16 {A}FEFF0DE000000000"), "o 0 00080060 CS 8 2 10\n");
        // the delimiter belongs to the element, not to its value
        says(&format!("o one 1 {OPEN}{A}{CLOSE}{A}"), "o 0 0040a730 SQ 12 26 46\n");
        says(
            "o one 0 E07F10004F420000FFFFFFFFFEFF00E002000000AABBFEFFDDE00000000000",
            "o 0 7fe00010 OB 12 10 30\n",
        );
    }

    #[test]
    fn one_element_refused() {
        says("o one 16 00", "o 2 0\n");
        says("o one 16 0800600043530200", "o 2 0\n");
        says("o one 16 FEFF0DE000000000", "o 3 0\n");
        says("o one 16 FEFF00E000000000", "o 3 0\n");
        says("o one 16 0800600058580000", "o 5 0\n");
        says("o one 16 E07F10004F57000100000000", "o 6 0\n");
        says("o one 16 08006000435301005A", "o 7 0\n");
        // inside it
        says(&format!("o one 1 {OPEN}{A}{A}{CLOSE}"), "o 4 30\n");
        says(&format!("o one 1 {OPEN}{A}"), "o 2 30\n");
    }

    #[test]
    fn one_element_by_its_levels() {
        let nested = |count: usize| format!("[{OPEN}*{count}][{CLOSE}*{count}]");
        says(&format!("o one 0 {}", nested(1)), "o 8 0\n");
        says("o one 0 400030A75351000000000000", "o 8 0\n");
        says("o one 1 400030A75351000000000000", "o 0 0040a730 SQ 12 0 12\n");
        for left in 1..=16 {
            let deepest = format!("o 0 0040a730 SQ 12 {} {}\n", 36 * left - 20, 36 * left);
            says(&format!("o one {left} {}", nested(left)), &deepest);
            says(&format!("o one {left} {}", nested(left + 1)), &format!("o 8 {}\n", 20 * left));
        }
        // a number above 16 counts as 16
        for left in ["17", "4294967295"] {
            says(&format!("o one {left} {}", nested(16)), "o 0 0040a730 SQ 12 556 576\n");
            says(&format!("o one {left} {}", nested(17)), "o 8 320\n");
        }
    }

    #[test]
    fn one_element_of_any_size_and_depth() {
        // as deep as 1,048,576 bytes can be
        says(&format!("o one 4294967295 [{OPEN}*52428]"), "o 8 320\n");
        says(&format!("o one 16 [{OPEN}*52428]"), "o 8 320\n");
        // the size is not tested
        let large = "090010004F570000F8FF0F00[00*1048568]";
        says(&format!("o one 16 {large}"), "o 0 00090010 OW 12 1048568 1048580\n");
        says(&format!("o one 16 {A}[00*1048577]"), "o 0 00080060 CS 8 2 10\n");
    }

    #[test]
    fn cases_not_understood() {
        for case in [
            "", "read", "read 0", "read 0g", "read 00 00", "read  00", "read [00]", "read [*3]",
            "read [00*]", "read [00*3", "read ]", "read [00*-1]", "read -00", "read +1",
            "read [00*99999999999999999999]", "reed 00", "lookup 0008006 -", "lookup 000800600 -",
            "one", "one 16", "one - -", "one none -", "one -1 -", "one 4294967296 -", "one 1 - -",
            "one 99999999999999999999 -",
            "list x 00 00", "list 1 00", "signature 1 00 nil 00", "frame", "digest", "digest zz",
            "list-check 1 SHA256 00 00", "signature-check 1 sha256 00 00",
            "feed 00 [00*64] 0 0 -", "finish [00*32] [00*63] 0 0", "finish [00*32] [00*64] 0",
        ] {
            says(&format!("n {case}"), "n ?\n");
        }
        says("n", "n ?\n");
    }
}
