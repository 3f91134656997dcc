//! Calls on lent memory, each compared whole with what it is meant to leave behind.

use crate::opaque;
use std::fmt::Debug;
use std::ops::Deref;
use std::process::ExitCode;

/// Bytes on either side of a lent slice. An odd number, so that the slice is not aligned.
const GUARD: usize = 61;

/// Two fills that differ in every byte: a byte written with the value that it had under one of
/// them shows under the other.
const FILLS: [u8; 2] = [0x5A, 0xA5];

/// How many differences are printed in full.
const PRINTED: u64 = 10;

/// What a call is meant to answer, and the bytes it is meant to write at the front of the memory it
/// was lent. Every other byte stays.
pub struct Outcome {
    pub answer: u64,
    pub written: Vec<u8>,
}

impl Outcome {
    /// The call succeeds and writes these bytes.
    pub fn wrote(written: Vec<u8>) -> Self {
        Self {
            answer: written.len() as u64,
            written,
        }
    }

    /// The call is refused.
    pub fn refused(refusal: u8) -> Self {
        Self {
            answer: u64::from(refusal) << 56,
            written: Vec::new(),
        }
    }

    /// The bytes handed in are no frame line: refusal 7 and its place.
    pub fn not_a_line(place: usize) -> Self {
        Self {
            answer: 7 << 56 | place as u64,
            written: Vec::new(),
        }
    }
}

/// What a call is given beside the lent memory: which function it is, in the order of
/// `include/kkurimyeot.h`, its numbers, and the slices that it reads.
pub struct Given<'a> {
    pub function: u8,
    pub numbers: Vec<u64>,
    pub slices: Vec<&'a [u8]>,
}

/// A call of the library with all that it is given but the lent memory.
pub trait Call: Debug {
    /// All that, for a caller that is not this program.
    fn given(&self) -> Given<'_>;

    /// Calls the library and gives its returned number.
    fn run(&self, out: &mut [u8]) -> u64;

    /// What the second program says of the call, for lent memory of `room` bytes.
    fn meant(&self, room: usize) -> Outcome;
}

/// A slice for a call between canary bytes, and what all of it held before.
pub struct Part {
    memory: Box<[u8]>,
    before: Vec<u8>,
    beside: usize,
}

impl Part {
    /// The bytes beside those that are handed in, so that a byte read past their end is not by chance
    /// a fill or a digit.
    const BESIDE: [u8; 3] = [0xC3, 0x80, 0x80];

    /// Bytes to hand in.
    pub fn new(bytes: &[u8]) -> Self {
        Self::between(&Self::BESIDE, bytes)
    }

    /// These bytes, with the canaries before them and behind them. With no canaries they are an
    /// allocation by themselves, of just their length.
    pub fn between(canaries: &[u8], bytes: &[u8]) -> Self {
        let before = [canaries, bytes, canaries].concat();
        Self {
            memory: before.clone().into_boxed_slice(),
            before,
            beside: canaries.len(),
        }
    }

    /// A slice to lend, canaries and all filled with a pattern.
    fn filled(room: usize, fill: u8) -> Self {
        let pattern: Vec<u8> = (0..GUARD.max(room))
            .map(|i| fill ^ (i as u8).wrapping_mul(29))
            .collect();
        Self::between(&pattern[..GUARD], &pattern[..room])
    }

    fn slice(&mut self) -> &mut [u8] {
        let end = self.memory.len() - self.beside;
        &mut self.memory[self.beside..end]
    }

    /// The places, from the start of the slice, whose byte is not the one of `written` there or else
    /// the one from before. A place before 0 or past the slice is a canary.
    fn wrong(&self, written: &[u8]) -> Vec<isize> {
        // The callee is not bound by Rust's rules: nothing is known of these bytes after the call.
        let memory = opaque(&self.memory);
        let meant = |i: usize| match i.checked_sub(self.beside).and_then(|i| written.get(i)) {
            Some(&byte) => byte,
            None => self.before[i],
        };
        (0..memory.len())
            .filter(|&i| memory[i] != meant(i))
            .map(|i| i as isize - self.beside as isize)
            .collect()
    }
}

impl Deref for Part {
    type Target = [u8];

    fn deref(&self) -> &[u8] {
        let memory = opaque(&self.memory);
        &memory[self.beside..memory.len() - self.beside]
    }
}

/// What a call answers, and the lent memory of `room` bytes after it.
pub fn answer(call: &impl Call, room: usize) -> (u64, Vec<u8>) {
    let mut lent = Part::filled(room, FILLS[0]);
    let answer = call.run(lent.slice());
    (answer, lent.to_vec())
}

/// Counts comparisons and prints the first differences.
#[derive(Default)]
pub struct Tally {
    comparisons: u64,
    differences: u64,
}

impl Tally {
    /// Runs a call and compares it with the second program.
    pub fn compare(&mut self, call: &impl Call, room: usize) {
        self.expect(call, room, &call.meant(room));
    }

    /// Runs a call once under each fill. One comparison for each run.
    pub fn expect(&mut self, call: &impl Call, room: usize, meant: &Outcome) {
        for fill in FILLS {
            self.once(call, Part::filled(room, fill), &[], meant);
        }
    }

    /// Runs a call; compares the returned number, every byte of the lent memory and around it, and
    /// those of the parts that are handed in, which stay. Gives the returned number.
    pub fn once(
        &mut self,
        call: &impl Call,
        mut lent: Part,
        handed_in: &[&Part],
        meant: &Outcome,
    ) -> u64 {
        let answer = call.run(lent.slice());
        let wrong = lent.wrong(&meant.written);
        let changed: Vec<_> = handed_in.iter().map(|part| part.wrong(&[])).collect();
        let kept = wrong.is_empty() && changed.iter().all(Vec::is_empty);
        self.count(answer == meant.answer && kept, || {
            let room = lent.len();
            format!(
                "{call:x?} lent {room} bytes\n  \
                 answer {answer:016x}, meant {:016x}\n  \
                 memory {:02x?}, meant to begin with {:02x?}\n  \
                 wrong at {wrong:?} (in decimal, canaries before 0 and from {room} on)\n  \
                 handed in and changed at {changed:?}",
                meant.answer, &*lent, meant.written,
            )
        });
        answer
    }

    /// Compares two values that have to be equal; `inputs` says what they came from.
    pub fn same<T: PartialEq + Debug>(
        &mut self,
        rule: &str,
        inputs: &impl Debug,
        found: T,
        meant: T,
    ) {
        self.count(found == meant, || {
            format!("{rule}: {inputs:x?}\n  found {found:x?}, meant {meant:x?}")
        });
    }

    fn count(&mut self, equal: bool, difference: impl FnOnce() -> String) {
        self.comparisons += 1;
        if !equal {
            self.differences += 1;
            if self.differences <= PRINTED {
                println!("difference, numbers in hexadecimal: {}", difference());
            }
        }
    }

    /// Prints the closing line; the exit status is 1 if anything differed.
    pub fn finish(self) -> ExitCode {
        let Self {
            comparisons,
            differences,
        } = self;
        if differences == 0 {
            println!("second program: {comparisons} comparisons, all equal");
            ExitCode::SUCCESS
        } else {
            println!("second program: {comparisons} comparisons, {differences} differ");
            ExitCode::FAILURE
        }
    }
}
