//! An independent, literal implementation of the rules, docs/RULES.md. Quotations
//! in the comments are from there, behind the number of the rule; two dots are
//! what is left out. (a) to (l) are the readings listed in README.md, which also
//! says from what this was written.

#![forbid(unsafe_code)]

pub mod frame;
pub mod list_mode;
pub mod lookup;
pub mod reading;
pub mod sha256;
pub mod signature_mode;
pub mod stream;
pub mod tag_list;

pub use answer::{Answer, Verdict};

/// The answer of a call that writes no stream, and what it gives if it is accepted.
pub(crate) fn answered<T>(result: Result<T, Answer>) -> (Answer, Option<T>) {
    match result {
        Ok(given) => (Answer::accepted(0), Some(given)),
        Err(answer) => (answer, None),
    }
}

/// What a call for the stream gives.
#[derive(Clone, Debug, PartialEq, Eq)]
pub struct Streamed {
    pub answer: Answer,
    /// The bytes written to the output; `None` for a refusal. 7.3: "A refused call
    /// changes no byte of the output and has length 0."
    pub stream: Option<Vec<u8>>,
}

impl Streamed {
    /// 7.3: "the answer's length is the stream's".
    pub(crate) fn from_result(result: Result<Vec<u8>, Answer>) -> Streamed {
        match result {
            Ok(stream) => Streamed { answer: Answer::accepted(stream.len()), stream: Some(stream) },
            Err(answer) => Streamed { answer, stream: None },
        }
    }
}

/// What a check gives.
#[derive(Clone, Debug, PartialEq, Eq)]
pub struct Checked {
    pub answer: Answer,
    /// 7.4: "7.3 holds of its work buffer in place of an output".
    pub stream: Option<Vec<u8>>,
    pub verdict: Verdict,
}

impl Checked {
    /// `result` is the stream of the check; its digest is compared here.
    pub(crate) fn from_result(result: Result<Vec<u8>, Answer>, expected: &[u8]) -> Checked {
        let Streamed { answer, stream } = Streamed::from_result(result);
        let verdict = match &stream {
            None => Verdict::Neither,
            Some(stream) if sha256::sha256(stream)[..] == *expected => Verdict::Same,
            Some(_) => Verdict::Differs,
        };
        Checked { answer, stream, verdict }
    }
}
