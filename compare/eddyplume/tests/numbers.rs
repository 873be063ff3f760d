//! The numbers of an answer stand in three files: in the table of include/eddyplume.h, by
//! their sentences in include/eddyplume_sentences.h, and in docs/NUMBERS.md with both.

use eddyplume::sentences;
use std::ops::RangeInclusive;

const HEADER: &str = include_str!("../../../include/eddyplume.h");
const SENTENCES: &str = include_str!("../../../include/eddyplume_sentences.h");
const DOCUMENT: &str = include_str!("../../../docs/NUMBERS.md");

const NOT_USED: &str = "This number is not used.";

/// The table in the header's comment: from 1 on, each number and what is said of it.
fn header_rows() -> Vec<(u64, String)> {
    let paragraphs = HEADER.split("\n *\n");
    let mut tables = paragraphs.filter(|lines| header_row(lines).is_some_and(|(of, _)| of == Some(1)));
    let (table, None) = (tables.next().expect("a table"), tables.next()) else {
        panic!("two tables");
    };
    let mut rows: Vec<(u64, String)> = Vec::new();
    for line in table.lines() {
        match (header_row(line).expect(line), rows.last_mut()) {
            ((Some(number), text), _) => rows.push((number, text.to_string())),
            ((None, more), Some((_, text))) => *text = format!("{text} {more}"),
            ((None, _), None) => panic!("{line}"),
        }
    }
    rows
}

/// ` *    1  TEXT`, or ` *       TEXT` where a row goes on.
fn header_row(line: &str) -> Option<(Option<u64>, &str)> {
    let (number, text) = line.strip_prefix(" *")?.split_at_checked(5)?;
    let text = text.strip_prefix("  ")?;
    match number.trim() {
        "" => Some((None, text)),
        number => Some((Some(number.parse().ok()?), text)),
    }
}

/// A row of the document: its number, and what is for the help desk and for the engineer.
fn document_rows() -> Vec<(u64, &'static str, &'static str)> {
    let cells = DOCUMENT.lines().map(|line| line.split('|').map(str::trim).collect::<Vec<_>>());
    let row = |cells: Vec<&'static str>| match cells[..] {
        ["", number, sentence, engineer, _, _, ""] => Some((number.parse().ok()?, sentence, engineer)),
        _ => None,
    };
    cells.filter_map(row).collect()
}

/// What is for the engineer, by number.
fn engineer(number: u64) -> &'static str {
    document_rows()[number as usize].2
}

#[test]
fn the_same_numbers_in_all_three() {
    let all: Vec<u64> = (0..sentences().count() as u64).collect();
    assert!(SENTENCES.contains(&format!("eddyplume_sentences[{}]", all.len())));
    assert_eq!(document_rows().iter().map(|&(number, ..)| number).collect::<Vec<_>>(), all);
    // 0 is said before the table
    assert_eq!(header_rows().iter().map(|&(number, _)| number).collect::<Vec<_>>(), all[1..]);
}

#[test]
fn the_same_sentences_in_c_and_in_the_document() {
    for ((number, in_document, _), in_c) in document_rows().into_iter().zip(sentences()) {
        assert_eq!(in_document, in_c, "{number}");
    }
}

#[test]
fn the_table_of_the_header_and_the_document() {
    for ((number, text), sentence) in header_rows().into_iter().zip(sentences().skip(1)) {
        assert_eq!(text == "(not used)", sentence == NOT_USED, "{number}");
        // each figure of the header, as 1,048,576 or SHA256, is the document's too
        let figures = text.split([' ', '(', ')', ';']).map(|word| word.trim_end_matches(','));
        for figure in figures.filter(|word| word.contains(|letter: char| letter.is_ascii_digit())) {
            assert!(engineer(number).contains(figure), "{number}: {figure}");
        }
    }
}

#[test]
fn the_positions_of_the_header_and_the_document() {
    let (offsets, indices) = (range(" an offset in the data set"), range(" an index into the list"));
    for (number, sentence) in (0..).zip(sentences()).filter(|&(_, sentence)| sentence != NOT_USED) {
        let (_, position) = engineer(number).split_once("Position").expect(sentence);
        let word = match number {
            number if offsets.contains(&number) => "offset",
            number if indices.contains(&number) => "index",
            _ => " 0",
        };
        assert!(position.split(['.', ';']).next().is_some_and(|said| said.contains(word)), "{number}");
    }
}

/// The numbers of which the header says this: `for FIRST to LAST` stands before it.
fn range(said: &str) -> RangeInclusive<u64> {
    let (before, _) = HEADER.split_once(said).expect(said);
    let words: Vec<&str> = before.rsplitn(5, ' ').collect();
    let [last, "to", first, "for", _] = words[..] else { panic!("{words:?}") };
    first.parse().expect(first)..=last.parse().expect(last)
}
