//! `compare bench`: times of the archive, of the independent implementation
//! and of a plain C digest, in one run.

use crate::arguments::{Arguments, Stop};
use crate::chart::chart;
use crate::plain_sha256;
use eddyplume::{written, Answer, Verdict};
use independent::reading::{Tag, MOST_BYTES};
use independent::{list_mode, lookup, sha256::sha256, signature_mode};
use inputs::workloads::{workloads, Workload, UID};
use std::hint::black_box;
use std::process::ExitCode;
use std::time::Instant;

/// All is timed in rounds, so that a busy moment of the machine spoils one
/// round only; each call runs this often in a round, and the best run counts.
const ROUNDS: usize = 4;
const RUNS: usize = 12;

/// A tag that stands in no workload: its lookup is the reading alone.
const ABSENT: u32 = 0xFFFF_FFFF;

/// One call on one input at full and half size, in milliseconds.
pub struct Row {
    pub input: &'static str,
    pub call: &'static str,
    pub full: Times,
    half: Times,
}

#[derive(Clone, Copy)]
pub struct Times {
    /// The length of the data set or message.
    bytes: usize,
    pub ours: f64,
    pub independent: f64,
    /// The plain C digest of the same stream, where the call digests one.
    pub plain_c: Option<f64>,
}

impl Times {
    fn keep_best(&mut self, again: Times) {
        self.ours = self.ours.min(again.ours);
        self.independent = self.independent.min(again.independent);
        if let (Some(best), Some(again)) = (&mut self.plain_c, again.plain_c) {
            *best = best.min(again);
        }
    }
}

pub fn run(words: &[String]) -> Result<ExitCode, Stop> {
    let arguments = Arguments::read(words, &["svg"])?;
    let inputs: Vec<_> = workloads(1, 1).into_iter().zip(workloads(1, 2)).collect();
    let mut rows = round(&inputs);
    for _ in 1..ROUNDS {
        for (row, again) in rows.iter_mut().zip(round(&inputs)) {
            row.full.keep_best(again.full);
            row.half.keep_best(again.half);
        }
    }
    print!("{}", table(&rows));
    if let Some(name) = arguments.option("svg") {
        std::fs::write(name, chart(&rows)).map_err(|error| Stop::failed(name, error))?;
    }
    Ok(ExitCode::SUCCESS)
}

/// Every call on each input, given at full and half size.
fn round(inputs: &[(Workload, Workload)]) -> Vec<Row> {
    let mut rows = Vec::new();
    for (full, half) in inputs {
        for (call, times) in CALLS {
            rows.push(Row { input: full.name, call, full: times(full), half: times(half) });
        }
    }
    rows.push(Row {
        input: "1 MiB",
        call: "digest",
        full: digest(MOST_BYTES),
        half: digest(MOST_BYTES / 2),
    });
    rows
}

/// What is timed of each workload.
type Timed = fn(&Workload) -> Times;
const CALLS: [(&str, Timed); 5] = [
    ("reading", reading),
    ("list stream", list_stream),
    ("list check", |workload| list_check(workload, &workload.data)),
    (SIGNED_LIST_CHECK, |workload| list_check(workload, &workload.signed_data)),
    (SIGNATURE_CHECK, signature_check),
];
const SIGNED_LIST_CHECK: &str = "list check, with signature";
const SIGNATURE_CHECK: &str = "signature check";

fn reading(Workload { data, .. }: &Workload) -> Times {
    let ours = || written(|(answer, part)| eddyplume::lookup(data, ABSENT, answer, part));
    assert!(ours().0.is_accepted());
    Times {
        bytes: data.len(),
        ours: best(ours),
        independent: best(|| lookup::lookup(data, Tag(ABSENT))),
        plain_c: None,
    }
}

fn list_stream(Workload { data, list, .. }: &Workload) -> Times {
    let mut out = vec![0; data.len()];
    let mut ours = || written(|answer| eddyplume::list_stream(list, data, &mut out, answer));
    assert!(ours().is_accepted());
    Times {
        bytes: data.len(),
        ours: best(ours),
        independent: best(|| list_mode::stream(data, list, data.len())),
        plain_c: None,
    }
}

fn list_check(Workload { list, .. }: &Workload, data: &[u8]) -> Times {
    let stream = list_mode::stream(data, list, data.len()).stream.unwrap_or_default();
    let (digest, mut work) = (plain_sha256::sha256(&stream), vec![0; data.len()]);
    let mut ours = || {
        written(|(answer, verdict)| {
            eddyplume::list_check(list, data, &digest, &mut work, answer, verdict)
        })
    };
    assert_same(ours());
    Times {
        bytes: data.len(),
        ours: best(ours),
        independent: best(|| list_mode::check(data, list, &digest, data.len())),
        plain_c: Some(best(|| plain_sha256::sha256(&stream))),
    }
}

fn signature_check(Workload { signed_data: data, .. }: &Workload) -> Times {
    let stream = signature_mode::stream(data, UID, None, data.len()).stream.unwrap_or_default();
    let (digest, mut work) = (plain_sha256::sha256(&stream), vec![0; data.len()]);
    let mut ours = || {
        written(|(answer, verdict)| {
            eddyplume::signature_check(UID, None, data, &digest, &mut work, answer, verdict)
        })
    };
    assert_same(ours());
    Times {
        bytes: data.len(),
        ours: best(ours),
        independent: best(|| signature_mode::check(data, UID, None, &digest, data.len())),
        plain_c: Some(best(|| plain_sha256::sha256(&stream))),
    }
}

fn digest(length: usize) -> Times {
    let message: Vec<u8> = (0..length).map(|at| (at % 251) as u8).collect();
    let ours = || written(|(digest, answer)| eddyplume::sha256(&message, digest, answer));
    assert_eq!(ours(), (plain_sha256::sha256(&message), Answer::accepted(0)));
    Times {
        bytes: length,
        ours: best(ours),
        independent: best(|| sha256(&message)),
        plain_c: Some(best(|| plain_sha256::sha256(&message))),
    }
}

fn assert_same((answer, verdict): (Answer, [u8; 1])) {
    assert_eq!((answer.number, verdict), (0, [Verdict::Same as u8]));
}

/// The shortest of the runs, in milliseconds.
fn best<T>(mut call: impl FnMut() -> T) -> f64 {
    (0..RUNS)
        .map(|_| {
            let start = Instant::now();
            black_box(call());
            start.elapsed().as_secs_f64() * 1_000.0
        })
        .fold(f64::INFINITY, f64::min)
}

fn table(rows: &[Row]) -> String {
    let mut table = format!(
        "Times in milliseconds, best of {} runs, all in one process. Inputs and buffers are\n\
         made before; buffers are not cleared between runs. `plain C` is a C digest of the same\n\
         stream or message.\n\n",
        ROUNDS * RUNS
    );
    table.push_str(&format!(
        "{:<8} {:<26} {:>9} {:>8} {:>8} {:>9} {:>12} {:>9} {:>8} {:>7}\n",
        "input",
        "call",
        "bytes",
        "full",
        "half",
        "full/half",
        "independent",
        "ind./ours",
        "plain C",
        "C/ours"
    ));
    table.extend(rows.iter().map(line));
    table.push_str(&signed_beside_listed(rows));
    table
}

/// A row as a line of the table.
fn line(row: &Row) -> String {
    let Times { bytes, ours, independent, plain_c } = row.full;
    let or_dash = |number: Option<f64>, digits| {
        number.map_or("-".to_string(), |number| format!("{number:.digits$}"))
    };
    format!(
        "{:<8} {:<26} {:>9} {:>8.4} {:>8.4} {:>9.2} {:>12.4} {:>9.2} {:>8} {:>7}\n",
        row.input,
        row.call,
        bytes,
        ours,
        row.half.ours,
        ours / row.half.ours,
        independent,
        independent / ours,
        or_dash(plain_c, 4),
        or_dash(plain_c.map(|plain_c| plain_c / ours), 2),
    )
}

/// The line under the table.
fn signed_beside_listed(rows: &[Row]) -> String {
    let mut line =
        "\nSignature check beside list check of the same data set and list:".to_string();
    for signed in rows.iter().filter(|row| row.call == SIGNATURE_CHECK) {
        let listed = rows
            .iter()
            .find(|row| row.input == signed.input && row.call == SIGNED_LIST_CHECK)
            .map_or(f64::NAN, |row| row.full.ours);
        line.push_str(&format!(" {} {:.2}", signed.input, signed.full.ours / listed));
    }
    line.push('\n');
    line
}
