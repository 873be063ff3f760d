//! What a call of the archive gave, and in what it differs from what is
//! wanted.

use crate::guarded::Guarded;
use crate::tally::{Function, Outcome};
use independent::Answer;

/// What one call of the archive gave, and in what it differs.
pub struct Call {
    pub function: Function,
    pub answer: Answer,
    pub outcomes: Vec<Outcome>,
    pub differences: Vec<String>,
}

/// Gathers a call's differences.
#[derive(Default)]
pub struct Differences {
    found: Vec<String>,
}

impl Differences {
    /// A difference where this does not hold.
    pub fn hold(&mut self, holds: bool, otherwise: impl FnOnce() -> String) {
        if !holds {
            self.found.push(otherwise());
        }
    }

    /// The guards round the buffer are as before.
    pub fn guards<T: Copy + PartialEq>(&mut self, what: &str, buffer: &Guarded<T>) {
        self.hold(buffer.guards_kept(), || format!("written beside {what}"));
    }

    /// The answer is this one.
    pub fn answer(&mut self, answer: &Guarded<Answer>, wanted: Answer) {
        let now = answer.now()[0];
        self.hold(now == wanted, || format!("{now:?}, not {wanted:?}"));
        self.guards("the answer", answer);
    }

    /// The buffer starts with what was to be written, if anything was, and is
    /// as before behind it.
    pub fn written(&mut self, what: &str, buffer: &Guarded<u8>, wanted: Option<&[u8]>) {
        let wanted = wanted.unwrap_or(&[]);
        self.hold(buffer.now().starts_with(wanted), || format!("other bytes in {what}"));
        let kept = buffer.kept_from(wanted.len());
        self.hold(kept, || format!("{what} touched where it has to stay"));
        self.guards(what, buffer);
    }

    pub fn found(self) -> Vec<String> {
        self.found
    }

    /// The call of `function` that gave this answer.
    pub fn call(self, function: Function, answer: &Guarded<Answer>) -> Call {
        let answer = answer.now()[0];
        let outcomes = vec![Outcome::Number(answer.number)];
        Call { function, answer, outcomes, differences: self.found }
    }
}
