//! Compares the proved archive with the independent implementation, on
//! generated cases, frames and DICOM files, and times both. See README.md.

mod arguments;
mod bench;
mod calls;
mod chart;
mod differences;
mod digest_calls;
mod files;
mod guarded;
mod plain_sha256;
mod program;
mod random;
mod tally;

use arguments::Stop;
use std::process::ExitCode;

const USAGE: &str = "\
compare random  [--seed N] [--cases N]
compare program [--seed N] [--cases N] MAC_STREAM
compare files   [--list TAGS] [--uid UID] [--signature N|none] FILE..
compare stream  [--list TAGS | --signature N|none] [--uid UID] FILE
compare bench   [--svg FILE]
";

fn main() -> ExitCode {
    let words: Vec<String> = std::env::args().skip(1).collect();
    let ran = match words.split_first() {
        Some((command, rest)) => match command.as_str() {
            "random" => random::run(rest),
            "program" => program::run(rest),
            "files" => files::run(rest),
            "stream" => files::run_stream(rest),
            "bench" => bench::run(rest),
            _ => Err(Stop::Usage(format!("{command}: no such command"))),
        },
        None => Err(Stop::Usage("a command is needed".to_string())),
    };
    ran.unwrap_or_else(|stop| {
        match stop {
            Stop::Usage(why) => eprint!("compare: {why}\n{USAGE}"),
            Stop::Failed(why) => eprintln!("compare: {why}"),
        }
        ExitCode::from(2)
    })
}
