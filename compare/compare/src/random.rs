//! `compare random`: generated cases through the archive and the independent
//! implementation.

use crate::arguments::{Arguments, Stop};
use crate::calls::calls;
use crate::differences::Call;
use crate::tally::Tally;
use inputs::cases::case;
use inputs::random::Random;
use std::process::ExitCode;

/// From this many cases on, everything that can be answered has to occur.
const ENOUGH_CASES: u64 = 100_000;

/// Differences that are written out.
const MOST_SHOWN: u64 = 10;

pub fn run(words: &[String]) -> Result<ExitCode, Stop> {
    let arguments = Arguments::read(words, &["seed", "cases"])?;
    let seed = arguments.number("seed", 1)?;
    let cases = arguments.number("cases", ENOUGH_CASES)?;

    let mut tally = Tally::default();
    let mut differing = 0;
    for index in 0..cases {
        let case = case(seed, index);
        let calls = calls(&case, &mut Random::of_case(!seed, index));
        tally.count_all(&calls);
        if calls.iter().all(|call| call.differences.is_empty()) {
            continue;
        }
        if differing < MOST_SHOWN {
            show(&calls, &case.write(&format!("case_{seed}_{index}")));
        }
        differing += 1;
    }

    print!("{}", tally.table());
    println!("{cases} cases of seed {seed}: {differing} differ");
    let complete = cases < ENOUGH_CASES || all_occurred(&tally);
    Ok(ExitCode::from(u8::from(differing > 0 || !complete)))
}

/// Writes what differs as comments, and the case as a line of a case file.
fn show(calls: &[Call], line: &str) {
    for call in calls.iter().filter(|call| !call.differences.is_empty()) {
        eprintln!("# {}: {}", call.function.name(), call.differences.join("; "));
    }
    eprintln!("{line}");
}

/// Whether everything that can be answered occurred; prints what did not.
fn all_occurred(tally: &Tally) -> bool {
    let missing = tally.missing();
    for (function, outcome) in &missing {
        println!("{} never gave {outcome}", function.name());
    }
    missing.is_empty()
}
