//! How often each function gave each number.

use crate::differences::Call;
use std::collections::{BTreeMap, BTreeSet};

#[derive(Clone, Copy, Debug, PartialEq, Eq, PartialOrd, Ord)]
pub enum Function {
    ListStream,
    ListMeasure,
    ListCheck,
    SignatureStream,
    SignatureMeasure,
    SignatureCheck,
    Lookup,
    Sha256,
    DigestFeed,
    DigestFinish,
}

impl Function {
    const ALL: [Function; 10] = [
        Function::ListStream,
        Function::ListMeasure,
        Function::ListCheck,
        Function::SignatureStream,
        Function::SignatureMeasure,
        Function::SignatureCheck,
        Function::Lookup,
        Function::Sha256,
        Function::DigestFeed,
        Function::DigestFinish,
    ];

    pub fn name(self) -> &'static str {
        match self {
            Function::ListStream => "list_stream",
            Function::ListMeasure => "list_measure",
            Function::ListCheck => "list_check",
            Function::SignatureStream => "signature_stream",
            Function::SignatureMeasure => "signature_measure",
            Function::SignatureCheck => "signature_check",
            Function::Lookup => "lookup",
            Function::Sha256 => "sha256",
            Function::DigestFeed => "digest_feed",
            Function::DigestFinish => "digest_finish",
        }
    }

    /// Everything that the function can say: 24 is the program's, what measures needs
    /// no room (16), and no message is long enough for 25 from `sha256`.
    fn outcomes(self) -> Vec<Outcome> {
        let (numbers, said): (Vec<u64>, &[&'static str]) = match self {
            Function::ListStream => ((0..=8).chain(10..=16).collect(), &[]),
            Function::ListMeasure => ((0..=8).chain(10..=15).collect(), &[]),
            Function::ListCheck => ((0..=16).collect(), &["same", "differs"]),
            Function::SignatureStream => ((0..=8).chain(10..=16).chain(18..=23).collect(), &[]),
            Function::SignatureMeasure => ((0..=8).chain(10..=15).chain(18..=23).collect(), &[]),
            Function::SignatureCheck => ((0..=16).chain(18..=23).collect(), &["same", "differs"]),
            Function::Lookup => ((0..=8).collect(), &["present", "absent"]),
            Function::Sha256 => (vec![0], &[]),
            Function::DigestFeed | Function::DigestFinish => (vec![0, 25], &[]),
        };
        let numbers = numbers.into_iter().map(Outcome::Number);
        numbers.chain(said.iter().map(|said| Outcome::Said(said))).collect()
    }
}

/// A number, or what is said beside the number 0.
#[derive(Clone, Copy, Debug, PartialEq, Eq, PartialOrd, Ord)]
pub enum Outcome {
    Number(u64),
    Said(&'static str),
}

impl std::fmt::Display for Outcome {
    fn fmt(&self, out: &mut std::fmt::Formatter) -> std::fmt::Result {
        match self {
            Outcome::Number(number) => write!(out, "{number}"),
            Outcome::Said(said) => write!(out, "{said}"),
        }
    }
}

#[derive(Default)]
pub struct Tally {
    counts: BTreeMap<(Function, Outcome), u64>,
}

impl Tally {
    /// Counts what each of the calls gave.
    pub fn count_all(&mut self, calls: &[Call]) {
        for call in calls {
            call.outcomes.iter().for_each(|&outcome| self.count(call.function, outcome));
        }
    }

    fn count(&mut self, function: Function, outcome: Outcome) {
        *self.counts.entry((function, outcome)).or_insert(0) += 1;
    }

    fn of(&self, function: Function, outcome: Outcome) -> u64 {
        self.counts.get(&(function, outcome)).copied().unwrap_or(0)
    }

    /// What can come through the boundary and did not occur.
    pub fn missing(&self) -> Vec<(Function, Outcome)> {
        let pairs = |function: Function| {
            function.outcomes().into_iter().map(move |outcome| (function, outcome))
        };
        Function::ALL
            .into_iter()
            .flat_map(pairs)
            .filter(|&(function, outcome)| self.of(function, outcome) == 0)
            .collect()
    }

    /// One row for each number and word, one column for each function; `-`
    /// where a function cannot say it.
    pub fn table(&self) -> String {
        let possible = Function::ALL.into_iter().flat_map(Function::outcomes);
        let occurred = self.counts.keys().map(|&(_, outcome)| outcome);
        let outcomes: BTreeSet<Outcome> = possible.chain(occurred).collect();
        let head = row("", |function| function.name().to_string());
        let rows = outcomes.into_iter().map(|outcome| self.row(outcome));
        std::iter::once(head).chain(rows).collect()
    }

    /// How often each function gave this.
    fn row(&self, outcome: Outcome) -> String {
        row(&outcome.to_string(), |function| {
            let count = self.of(function, outcome);
            let possible = count > 0 || function.outcomes().contains(&outcome);
            if possible {
                count.to_string()
            } else {
                "-".to_string()
            }
        })
    }
}

/// A line of the table: its name, and a cell for each function.
fn row(name: &str, cell: impl Fn(Function) -> String) -> String {
    let cells = Function::ALL.into_iter().map(|function| format!(" {:>17}", cell(function)));
    format!("{name:>8}{}\n", cells.collect::<String>())
}

#[cfg(test)]
mod tests {
    use super::*;

    #[test]
    fn what_did_not_occur_is_missing() {
        let mut tally = Tally::default();
        for function in Function::ALL {
            for outcome in function.outcomes() {
                assert!(tally.missing().contains(&(function, outcome)));
                tally.count(function, outcome);
            }
        }
        assert!(tally.missing().is_empty());
        tally.count(Function::Sha256, Outcome::Number(25));
        assert!(tally.table().contains("25"));
    }
}
