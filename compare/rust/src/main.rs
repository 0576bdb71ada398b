//! Reads cases on standard input and writes the original's outcome of each on a line of its own.

mod calls;
mod domains;
mod matrices;
mod printer;
mod quiet;
mod reducer;
mod tensors;
mod words;
mod zp;

use std::io::{self, BufRead, Write};

const LONGEST_LINE: usize = 1_000_000;

fn answer(line: &[u8]) -> String {
    let case = std::str::from_utf8(line)
        .ok()
        .filter(|case| case.len() <= LONGEST_LINE);
    case.and_then(calls::outcome).unwrap_or("bad".into())
}

fn main() -> io::Result<()> {
    quiet::keep_messages();
    let mut out = io::BufWriter::new(io::stdout().lock());
    for line in io::stdin().lock().split(b'\n') {
        let line = line?;
        if !line.is_empty() && line[0] != b'#' {
            writeln!(out, "{}", answer(&line))?;
        }
    }
    out.flush()
}
