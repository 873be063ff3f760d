//! The sentence for the help desk beside each number: those of
//! include/eddyplume_sentences.h.

const TABLE: &str = include_str!("../../../include/eddyplume_sentences.h");

/// The strings of the table, in its order.
pub fn sentences() -> impl Iterator<Item = &'static str> {
    TABLE.lines().filter_map(|line| line.trim().strip_prefix('"')?.strip_suffix("\","))
}

pub fn sentence(number: u64) -> &'static str {
    usize::try_from(number)
        .ok()
        .and_then(|number| sentences().nth(number))
        .unwrap_or("There is no such number.")
}
