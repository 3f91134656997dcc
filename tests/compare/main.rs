//! Compares the library, through its C functions, with the second program.

mod blocks;
mod frames;
mod lines;
mod opening;
mod sealing;

use second::harness::Tally;
use std::process::ExitCode;

fn main() -> ExitCode {
    let mut tally = Tally::default();
    blocks::compare(&mut tally);
    sealing::compare(&mut tally);
    opening::compare(&mut tally);
    lines::compare(&mut tally);
    tally.finish()
}
