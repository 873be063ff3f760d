//! The answer of a call and the verdict of a check, the same for the archive and for
//! `independent`.

#![forbid(unsafe_code)]

use std::fmt;

/// RULES 9.1: "Every answer consists of number, position and length. With number 0 the
/// position is 0." It lies in memory as include/eddyplume.h says.
#[repr(C)]
#[derive(Clone, Copy, Debug, Default, PartialEq, Eq)]
pub struct Answer {
    pub number: u64,
    pub position: u64,
    pub length: u64,
}

impl Answer {
    /// Accepted, with a stream of this length; 0 where none is written or measured.
    pub fn accepted(length: usize) -> Answer {
        Answer { number: 0, position: 0, length: length as u64 }
    }

    /// RULES 9.2: "The position is, for 2 to 8, an offset in the data set; for 11 to 15
    /// an index into the list, counted from 0". 1.6: "The length of a refusal is 0".
    pub fn refused_at(number: u64, position: usize) -> Answer {
        Answer { number, position: position as u64, length: 0 }
    }

    /// RULES 9.2: "for every other number 0".
    pub fn refused(number: u64) -> Answer {
        Answer::refused_at(number, 0)
    }

    /// RULES 7.1: "A call with number 0 is accepted."
    pub fn is_accepted(self) -> bool {
        self.number == 0
    }
}

/// RULES 11.3: "number, position and length in decimal, with one space between".
impl fmt::Display for Answer {
    fn fmt(&self, out: &mut fmt::Formatter) -> fmt::Result {
        write!(out, "{} {} {}", self.number, self.position, self.length)
    }
}

/// What a check says, with the codes of include/eddyplume.h. RULES 7.4: "A check that is
/// refused says neither of the two."
#[repr(u8)]
#[derive(Clone, Copy, Debug, PartialEq, Eq)]
pub enum Verdict {
    Neither = 0,
    Same = 1,
    Differs = 2,
}
