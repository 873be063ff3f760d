//! `compare program`: frames to the stream program.

use crate::arguments::{Arguments, Stop};
use expect::case::Case;
use independent::frame;
use std::collections::BTreeMap;
use std::io::{self, Read, Write};
use std::process::{Command, ExitCode, ExitStatus, Stdio};
use std::thread;

/// Differences that are written out.
const MOST_SHOWN: u64 = 10;

pub fn run(words: &[String]) -> Result<ExitCode, Stop> {
    let arguments = Arguments::read(words, &["seed", "cases"])?;
    let seed = arguments.number("seed", 1)?;
    let cases = arguments.number("cases", 5_000)?;
    let [program] = &arguments.others[..] else {
        return Err(Stop::Usage("the path of mac_stream is needed".to_string()));
    };

    let mut counts: BTreeMap<u64, u64> = BTreeMap::new();
    let mut differing = 0;
    for index in 0..cases {
        let input = inputs::frames::frame(seed, index);
        let wanted = frame::run(&input);
        let (printed, status) =
            fed(program, &input).map_err(|error| Stop::failed(program, error))?;
        *counts.entry(wanted.answer.number).or_insert(0) += 1;
        if printed == wanted.text && status.success() {
            continue;
        }
        if differing < MOST_SHOWN {
            eprintln!("# {status}, printed {:?}", String::from_utf8_lossy(&printed));
            eprintln!("{}", Case::Frame { input }.write(&format!("frame_{seed}_{index}")));
        }
        differing += 1;
    }

    for (number, count) in counts {
        println!("{number:>8} {count:>8}");
    }
    println!("{cases} frames of seed {seed}: {differing} differ");
    Ok(ExitCode::from(u8::from(differing > 0)))
}

/// What the program prints for `input`, and how it ends.
fn fed(program: &str, input: &[u8]) -> io::Result<(Vec<u8>, ExitStatus)> {
    let mut child =
        Command::new(program).stdin(Stdio::piped()).stdout(Stdio::piped()).spawn()?;
    let (stdin, stdout) = (child.stdin.take(), child.stdout.take());
    let printed = thread::scope(|scope| {
        // A program that has read enough may close its end: no fault.
        scope.spawn(move || stdin.map(|mut stdin| stdin.write_all(input).ok()));
        let mut printed = Vec::new();
        stdout.map_or(Ok(0), |mut stdout| stdout.read_to_end(&mut printed)).map(|_| printed)
    })?;
    Ok((printed, child.wait()?))
}
