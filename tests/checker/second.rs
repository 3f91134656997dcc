//! The second checker: reads a file at standard input, line by line, and prints its listing.

use second::line::{END, LONGEST};
use second::listing::{self, Totals, KEY_REFUSED};
use std::io::{self, BufRead, BufReader, BufWriter, Read, Write};

/// Bytes that are read or written at a time.
const PIECE: usize = 1 << 16;

/// Bytes that are kept of a line. No good line is as long, so these begin none, and the place is among
/// them.
const KEPT: usize = LONGEST + 1;

/// Takes the next line, or what is kept of it, with its byte 0A. After the last it is empty.
fn next(input: &mut impl BufRead, line: &mut Vec<u8>) -> io::Result<()> {
    line.clear();
    input.take(KEPT as u64).read_until(END, line)?;
    if line.len() == KEPT && !line.ends_with(&[END]) {
        pass_over(input)?;
    }
    Ok(())
}

/// Passes over the rest of a line.
fn pass_over(input: &mut impl BufRead) -> io::Result<()> {
    loop {
        let piece = input.fill_buf()?;
        let (length, end) = (piece.len(), piece.iter().position(|&byte| byte == END));
        match end {
            Some(end) => {
                input.consume(end + 1);
                return Ok(());
            }
            None if length == 0 => return Ok(()),
            None => input.consume(length),
        }
    }
}

fn main() -> io::Result<()> {
    let mut input = BufReader::with_capacity(PIECE, io::stdin().lock());
    let mut out = BufWriter::with_capacity(PIECE, io::stdout().lock());
    let mut line = Vec::with_capacity(KEPT);

    next(&mut input, &mut line)?;
    match listing::key(&line) {
        None => out.write_all(KEY_REFUSED)?,
        Some(key) => {
            let mut totals = Totals::default();
            next(&mut input, &mut line)?;
            while !line.is_empty() {
                totals.line(key, &line, &mut out)?;
                next(&mut input, &mut line)?;
            }
            totals.close(&mut out)?;
        }
    }
    out.flush()
}
