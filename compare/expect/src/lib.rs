//! The case format of README.md: cases, their spelling, and the lines that
//! are expected of them.

#![forbid(unsafe_code)]

pub mod case;
pub mod lines;
pub mod spelling;
