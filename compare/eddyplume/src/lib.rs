//! include/ in Rust: the functions of the proved archive libeddyplume.a as safe
//! functions, which write into what the caller lends as those in C do, and the sentences.
//! What the numbers mean is said in include/eddyplume.h and docs/NUMBERS.md.

#[macro_use]
mod lent;
mod header;
mod sentences;

pub use answer::{Answer, Verdict};
pub use header::*;
pub use sentences::{sentence, sentences};

/// What `call` writes into what it is lent: an answer, or a tuple of an answer and the like.
pub fn written<T: Default>(call: impl FnOnce(&mut T)) -> T {
    let mut lent = T::default();
    call(&mut lent);
    lent
}
