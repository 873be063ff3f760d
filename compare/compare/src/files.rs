//! `compare files` and `compare stream`: the data sets of DICOM files.

use crate::arguments::{Arguments, Stop};
use eddyplume::{sentence, written};
use expect::spelling::{read_tag, read_which, write_hex};
use independent::reading::{read, Content, Tag};
use independent::sha256::sha256;
use independent::signature_mode::DIGITAL_SIGNATURES_SEQUENCE;
use independent::stream::holds_unknown;
use independent::tag_list::{is_barred, MOST_TAGS};
use independent::{list_mode, lookup, signature_mode, Answer, Streamed};
use inputs::part10;
use inputs::tag_lists::bytes_of;
use std::io::{self, Write};
use std::process::ExitCode;

/// What is asked of each file.
struct Asked {
    /// `--list`: the tags to list.
    list: Option<Vec<u8>>,
    /// `--uid`: the transfer syntax the caller says, in place of the file's.
    uid: Option<String>,
    /// `--signature`: the one that is asked for.
    signature: Option<Option<usize>>,
}

impl Asked {
    fn read(words: &[String]) -> Result<(Asked, Vec<String>), Stop> {
        let arguments = Arguments::read(words, &["list", "uid", "signature"])?;
        let bad = |option: &str| Stop::Usage(format!("--{option} is not understood"));
        let list = arguments.option("list").map(|tags| read_list(tags).ok_or(bad("list")));
        let signature = arguments
            .option("signature")
            .map(|which| read_which(which.as_bytes()).ok_or(bad("signature")));
        let asked = Asked {
            list: list.transpose()?,
            uid: arguments.option("uid").map(str::to_string),
            signature: signature.transpose()?,
        };
        Ok((asked, arguments.others))
    }

    fn uid<'a>(&'a self, file: &'a part10::File) -> &'a [u8] {
        self.uid.as_deref().unwrap_or(file.transfer_syntax).as_bytes()
    }
}

/// Tags of eight hex digits, separated by commas.
fn read_list(tags: &str) -> Option<Vec<u8>> {
    let tags: Option<Vec<u32>> =
        tags.split(',').map(|tag| read_tag(tag.as_bytes()).map(|tag| tag.0)).collect();
    tags.map(|tags| bytes_of(&tags))
}

/// What becomes of a file.
#[derive(Clone, Copy, PartialEq, Eq)]
enum Outcome {
    Agree,
    Disagree,
    Skipped,
    NotOpened,
}

impl Outcome {
    fn is_compared(self) -> bool {
        matches!(self, Outcome::Agree | Outcome::Disagree)
    }
}

/// `compare files`
pub fn run(words: &[String]) -> Result<ExitCode, Stop> {
    let (asked, names) = Asked::read(words)?;
    if names.is_empty() {
        return Err(Stop::Usage("a file is needed".to_string()));
    }
    let outcomes: Vec<Outcome> = names.iter().map(|name| outcome(name, &asked)).collect();
    println!("{}", summary(&names, &outcomes));
    Ok(ExitCode::from(status(&outcomes)))
}

/// Prints what is to be said of a file.
fn outcome(name: &str, asked: &Asked) -> Outcome {
    println!("{name}");
    let bytes = match std::fs::read(name) {
        Ok(bytes) => bytes,
        Err(error) => {
            println!("  not opened: {error}");
            return Outcome::NotOpened;
        }
    };
    match part10::read(&bytes) {
        Err(why) => {
            println!("  skipped: {why}");
            Outcome::Skipped
        }
        Ok(file) if compared(&file, asked) => Outcome::Agree,
        Ok(_) => Outcome::Disagree,
    }
}

/// How many files were compared, and which were not.
fn summary(names: &[String], outcomes: &[Outcome]) -> String {
    let others: Vec<&str> = names
        .iter()
        .zip(outcomes)
        .filter(|(_, outcome)| !outcome.is_compared())
        .map(|(name, _)| name.as_str())
        .collect();
    let compared = names.len() - others.len();
    let not = if others.is_empty() { String::new() } else { format!(", not: {}", others.join(", ")) };
    format!("{compared} of {} compared{not}", names.len())
}

/// Exit status 1 where the two disagree, otherwise 2 where a file cannot be opened
/// or none was compared.
fn status(outcomes: &[Outcome]) -> u8 {
    if outcomes.contains(&Outcome::Disagree) {
        1
    } else if outcomes.contains(&Outcome::NotOpened) || !outcomes.contains(&Outcome::Agree) {
        2
    } else {
        0
    }
}

/// Prints what a file's data set gives; whether both agree on all of it.
fn compared(file: &part10::File, asked: &Asked) -> bool {
    println!(
        "  transfer syntax {}, data set of {} bytes from byte {} on",
        file.transfer_syntax,
        file.data.len(),
        file.offset
    );
    let mut agree = true;
    match asked.list.clone().or_else(|| list_of_all(file.data)) {
        Some(list) => {
            let ours = Stream::of(file.data, |out, answer| {
                eddyplume::list_stream(&list, file.data, out, answer)
            });
            let wanted = list_mode::stream(file.data, &list, file.data.len());
            agree &= ours.shown(&format!("list mode, {} tags", list.len() / 4), &wanted);
        }
        None => agree &= reading_shown(file.data),
    }
    for which in signatures(file.data, asked) {
        let (uid, number) = (asked.uid(file), which.map(|which| which as u64));
        let ours = Stream::of(file.data, |out, answer| {
            eddyplume::signature_stream(uid, number, file.data, out, answer)
        });
        let wanted = signature_mode::stream(file.data, uid, which, file.data.len());
        let name = which.map_or("none".to_string(), |which| which.to_string());
        agree &= ours.shown(&format!("signature {name}"), &wanted);
    }
    agree
}

/// The archive's answer and its output.
struct Stream {
    answer: Answer,
    out: Vec<u8>,
}

impl Stream {
    /// Calls with an output as long as the data set, which always serves.
    fn of(data: &[u8], call: impl FnOnce(&mut [u8], &mut Answer)) -> Stream {
        let mut out = vec![0; data.len()];
        let answer = written(|answer| call(&mut out, answer));
        out.truncate(answer.length as usize);
        Stream { answer, out }
    }

    /// Prints the answer beside what was wanted; whether they agree.
    fn shown(&self, what: &str, wanted: &Streamed) -> bool {
        println!("  {what}: {}", said(self.answer));
        let (digest, _) = written(|(digest, answer)| eddyplume::sha256(&self.out, digest, answer));
        if self.answer.is_accepted() {
            println!("    stream of {} bytes, SHA-256 {}", self.out.len(), write_hex(&digest));
        }
        let stream = wanted.stream.as_deref().unwrap_or(&[]);
        agreement(self.answer == wanted.answer && self.out == stream && digest == sha256(stream))
    }
}

/// An answer and its sentence.
fn said(answer: Answer) -> String {
    format!("{answer}: {}", sentence(answer.number))
}

fn agreement(agree: bool) -> bool {
    let word = if agree { "agrees" } else { "DISAGREES" };
    println!("    the independent implementation {word}");
    agree
}

/// All top-level tags that may be listed, as many as a list takes; `None`
/// where the data set is refused.
fn list_of_all(data: &[u8]) -> Option<Vec<u8>> {
    let tags: Vec<u32> = read(data)
        .data_set?
        .elements
        .iter()
        .filter(|element| !is_barred(element.tag))
        .filter(|element| !element.is_unknown() && !holds_unknown(element))
        .map(|element| element.tag.0)
        .take(MOST_TAGS)
        .collect();
    Some(bytes_of(&tags))
}

/// A refused data set has no list; the lookup of any tag shows the refusal.
fn reading_shown(data: &[u8]) -> bool {
    const SOP_CLASS_UID: Tag = Tag::new(0x0008, 0x0016);
    let (ours, _) =
        written(|(answer, part)| eddyplume::lookup(data, SOP_CLASS_UID.0, answer, part));
    println!("  reading: {}", said(ours));
    agreement(ours == lookup::lookup(data, SOP_CLASS_UID).answer)
}

/// The one signature that is asked for, or each that the data set has.
fn signatures(data: &[u8], asked: &Asked) -> Vec<Option<usize>> {
    if let Some(which) = asked.signature {
        return vec![which];
    }
    let count = read(data)
        .data_set
        .and_then(|data_set| match &data_set.element(DIGITAL_SIGNATURES_SEQUENCE)?.content {
            Content::Items(items) => Some(items.len()),
            Content::Bytes | Content::Fragments(_) => None,
        })
        .unwrap_or(0);
    (0..count).map(Some).collect()
}

/// `compare stream`: the archive's stream of one file to standard output.
pub fn run_stream(words: &[String]) -> Result<ExitCode, Stop> {
    let (asked, names) = Asked::read(words)?;
    let [name] = &names[..] else {
        return Err(Stop::Usage("one file is needed".to_string()));
    };
    if asked.list.is_some() && asked.signature.is_some() {
        return Err(Stop::Usage("--list or --signature, not both".to_string()));
    }
    let bytes = std::fs::read(name).map_err(|error| Stop::failed(name, error))?;
    let file = part10::read(&bytes).map_err(|why| Stop::failed(name, why))?;
    let stream = Stream::of(file.data, |out, answer| match (&asked.list, asked.signature) {
        (Some(list), _) => eddyplume::list_stream(list, file.data, out, answer),
        (None, which) => {
            let number = which.flatten().map(|which| which as u64);
            eddyplume::signature_stream(asked.uid(&file), number, file.data, out, answer)
        }
    });
    if !stream.answer.is_accepted() {
        eprintln!("{name}: {}", said(stream.answer));
        return Ok(ExitCode::from(1));
    }
    io::stdout().write_all(&stream.out).map_err(|error| Stop::failed("standard output", error))?;
    Ok(ExitCode::SUCCESS)
}

#[cfg(test)]
mod tests {
    use super::*;

    #[test]
    fn lists_as_they_are_written() {
        assert_eq!(read_list("00080060,7FE00010"), Some(bytes_of(&[0x0008_0060, 0x7FE0_0010])));
        for not_understood in ["", "0008", "0008,0060", "00080060,", "(0008,0060)"] {
            assert_eq!(read_list(not_understood), None, "{not_understood}");
        }
    }

    #[test]
    fn what_the_files_end_in() {
        use Outcome::{Agree, Disagree, NotOpened, Skipped};
        for (outcomes, wanted, said) in [
            (vec![Agree], 0, "1 of 1 compared"),
            (vec![Agree, Skipped], 0, "1 of 2 compared, not: b"),
            (vec![Skipped], 2, "0 of 1 compared, not: a"),
            (vec![Skipped, Skipped], 2, "0 of 2 compared, not: a, b"),
            (vec![Agree, NotOpened], 2, "1 of 2 compared, not: b"),
            (vec![Skipped, NotOpened, Disagree], 1, "1 of 3 compared, not: a, b"),
        ] {
            let names = ["a", "b", "c"].map(str::to_string);
            let summary = summary(&names[..outcomes.len()], &outcomes);
            assert_eq!((status(&outcomes), summary.as_str()), (wanted, said));
        }
    }

    #[test]
    fn what_may_not_be_listed_is_left_out() {
        let unknown = [0x09, 0, 0x10, 0, b'U', b'N', 0, 0, 0, 0, 0, 0];
        let barred = [0x02, 0, 0x10, 0, b'U', b'I', 0, 0];
        let plain = [0x08, 0, 0x60, 0, b'C', b'S', 0, 0];
        let data = [&barred[..], &plain, &unknown].concat();
        assert_eq!(list_of_all(&data), Some(bytes_of(&[0x0008_0060])));
        assert_eq!(list_of_all(&data[..7]), None);
    }
}
