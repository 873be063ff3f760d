//! Reads a case file from standard input and writes the expected lines to
//! standard output.

#![forbid(unsafe_code)]

use expect::lines::expected_lines;
use std::io::{self, BufRead, BufReader, BufWriter, Write};

fn main() -> io::Result<()> {
    let mut input = BufReader::new(io::stdin().lock());
    let mut output = BufWriter::new(io::stdout().lock());
    let mut line = Vec::new();
    loop {
        line.clear();
        if input.read_until(b'\n', &mut line)? == 0 {
            break;
        }
        if line.last() == Some(&b'\n') {
            line.pop();
        }
        output.write_all(&expected_lines(&line))?;
    }
    output.flush()
}
