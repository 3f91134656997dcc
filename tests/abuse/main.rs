//! Abuses the library: random and damaged numbers, lengths and bytes through all its C functions, each
//! call compared with the second program.
//!
//!     abuse COUNT               so many calls, all memory between canaries
//!     abuse COUNT exact         for valgrind: each slice allocated by itself, and each call made once
//!                               more on lent memory that nothing was written to
//!     abuse COUNT cases FOLDER  makes no call: writes the calls, with what the second program says of
//!                               them, to files for the boards, after the nine vectors of appendix A.1

mod calls;
mod cases;
mod damage;
mod frames;
mod numbers;

use calls::{Abuse, Memory};
use cases::Cases;
use second::calls::blocks::Function::{Decipher, Encipher, Engine, Schedule, Turn};
use std::env;
use std::path::Path;
use std::process::ExitCode;

/// Every run has the same calls.
const SEED: u64 = 0x6B6B_7572_696D_7965;

/// The name of a C function, the refusals that c-interface.md lists for it, and a random call of it,
/// which gives what was returned.
type Abused = (&'static str, &'static [u8], fn(&mut Abuse) -> u64);

const FUNCTIONS: [Abused; 15] = [
    ("kk_schedule", &[5], |a| a.block::<u64>(Schedule)),
    ("kk_turn", &[5], |a| a.block::<u64>(Turn)),
    ("kk_engine", &[1, 5], |a| a.block::<u64>(Engine)),
    ("kk_encipher", &[1, 5], |a| a.block::<u64>(Encipher)),
    ("kk_decipher", &[1, 5], |a| a.block::<u64>(Decipher)),
    ("kk_seal", &[2, 3, 5], Abuse::seal),
    ("kk_open", &[2, 3, 4, 5, 6], Abuse::open),
    ("kk_read_line", &[7, 5], Abuse::read_line),
    ("kk_write_line", &[2, 3, 5], Abuse::write_line),
    ("kk_open_line", &[7, 5, 6], Abuse::open_line),
    ("kk128_schedule", &[5], |a| a.block::<u128>(Schedule)),
    ("kk128_turn", &[5], |a| a.block::<u128>(Turn)),
    ("kk128_engine", &[1, 5], |a| a.block::<u128>(Engine)),
    ("kk128_encipher", &[1, 5], |a| a.block::<u128>(Encipher)),
    ("kk128_decipher", &[1, 5], |a| a.block::<u128>(Decipher)),
];

/// How often each refusal came, and at 0 how many calls were taken.
type Came = [u64; 256];

/// Prints how often each answer came.
fn print_counts(name: &str, came: &Came) {
    let calls: u64 = came.iter().sum();
    print!("{name:14} {calls:7} calls: {} taken", came[0]);
    for (refusal, count) in (1..).zip(&came[1..]).filter(|(_, count)| **count > 0) {
        print!(", {count} refused {refusal}");
    }
    println!();
}

/// Whether each answer that a function can give came, and no other.
fn complete(name: &str, refusals: &[u8], came: &Came) -> bool {
    let wrong = |answer: &u8| {
        let possible = *answer == 0 || refusals.contains(answer);
        possible != (came[usize::from(*answer)] > 0)
    };
    let wrong: Vec<u8> = (0..=255).filter(wrong).collect();
    if !wrong.is_empty() {
        println!("difference: {name} never answers, or cannot answer: {wrong:?}");
    }
    wrong.is_empty()
}

fn main() -> ExitCode {
    let words: Vec<String> = env::args().skip(1).collect();
    let words: Vec<&str> = words.iter().map(String::as_str).collect();
    let (count, memory, folder) = match words[..] {
        [count] => (count, Memory::Canaries, None),
        [count, "exact"] => (count, Memory::Exact, None),
        [count, "cases", folder] => (count, Memory::Canaries, Some(Path::new(folder))),
        _ => panic!("COUNT, COUNT exact or COUNT cases FOLDER"),
    };
    let count: u64 = count.parse().expect("a number");

    println!("abuse: {count} calls, seed {SEED:016x}");
    let mut abuse = Abuse::new(SEED, memory);
    abuse.cases = folder.map(|_| Cases::new());
    let mut came = [[0; 256]; FUNCTIONS.len()];
    for _ in 0..count {
        let function = abuse.below(FUNCTIONS.len());
        let (_, _, call) = FUNCTIONS[function];
        let answer = call(&mut abuse);
        came[function][(answer >> 56) as usize] += 1;
    }

    let mut all_came = true;
    for ((name, refusals, _), came) in FUNCTIONS.iter().zip(&came) {
        print_counts(name, came);
        all_came &= complete(name, refusals, came);
    }
    let finished = match (abuse.cases, folder) {
        (Some(cases), Some(folder)) => {
            cases.write(folder).expect("files that can be written");
            ExitCode::SUCCESS
        }
        _ => abuse.tally.finish(),
    };
    if all_came {
        finished
    } else {
        ExitCode::FAILURE
    }
}
