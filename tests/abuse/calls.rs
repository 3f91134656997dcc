//! Random calls of each C function, each compared with the second program.

use crate::cases::Cases;
use crate::damage::damage_line;
use crate::frames::{self, Frame};
use crate::numbers;
use second::calls::blocks::{Function, Input, Word};
use second::calls::frames::{OpenCall, SealCall};
use second::calls::lines::{opening, reading, writing, READ};
use second::harness::{Call, Outcome, Part, Tally};
use second::line::LONGEST;
use second::opaque;
use second::rng::Rng;
use std::array;
use std::mem::MaybeUninit;

/// How many frames are at hand to be damaged. Now and then one of them makes room for a new one.
const FRAMES: usize = 64;

/// How memory is lent and handed in.
#[derive(Clone, Copy, PartialEq, Eq)]
pub enum Memory {
    /// Between canaries, at every alignment.
    Canaries,
    /// Allocated by itself, of just its length: valgrind notes each byte beside it.
    Exact,
}

/// What random calls are made from, and how they compared so far. All memory is filled from `bytes`.
/// Where there are cases, calls are added to them and not made.
pub struct Abuse {
    rng: Rng,
    memory: Memory,
    frames: Vec<Frame>,
    bytes: Vec<u8>,
    pub tally: Tally,
    pub cases: Option<Cases>,
}

impl Abuse {
    pub fn new(seed: u64, memory: Memory) -> Self {
        let mut rng = Rng::new(seed);
        let frames = (0..FRAMES).map(|_| {
            let key = frames::key(&mut rng);
            Frame::new(&mut rng, key)
        });
        let frames = frames.collect();
        let bytes = rng.bytes(1 << 18);
        Self {
            rng,
            memory,
            frames,
            bytes,
            tally: Tally::default(),
            cases: None,
        }
    }

    /// A random number below this one.
    pub fn below(&mut self, number: usize) -> usize {
        self.rng.below(number)
    }

    /// So many random bytes.
    fn some(&mut self, count: usize) -> Vec<u8> {
        let at = self.rng.below(self.bytes.len() - count);
        self.bytes[at..at + count].to_vec()
    }

    /// Memory with these bytes, to lend or to hand in.
    fn part(&mut self, bytes: &[u8]) -> Part {
        let canaries = match self.memory {
            Memory::Canaries => {
                let count = 32 + self.rng.below(16);
                self.some(count)
            }
            Memory::Exact => Vec::new(),
        };
        Part::between(&canaries, bytes)
    }

    /// Runs a call whose answer needs so many bytes, and gives what it returned.
    fn run(&mut self, call: &impl Call, need: usize, handed_in: &[&Part]) -> u64 {
        let room = numbers::room(&mut self.rng, need.min(LONGEST));
        let meant = call.meant(room);
        if let Some(cases) = &mut self.cases {
            cases.add(call, room, &meant);
            return meant.answer;
        }
        if self.memory == Memory::Exact {
            run_on_unwritten(&mut self.tally, call, room, &meant);
        }
        let before = self.some(room);
        let lent = self.part(&before);
        self.tally.once(call, lent, handed_in, &meant)
    }

    /// Some frame, now and then a new one; half of these keep the key of the one before.
    fn good_frame(&mut self) -> Frame {
        let at = self.rng.below(FRAMES);
        if numbers::one_in(&mut self.rng, 8) {
            let key = if numbers::one_in(&mut self.rng, 2) {
                self.frames[at].key
            } else {
                frames::key(&mut self.rng)
            };
            self.frames[at] = Frame::new(&mut self.rng, key);
        }
        self.frames[at].clone()
    }

    /// Some frame with so many damages.
    fn frame(&mut self, damages: usize) -> Frame {
        let mut frame = self.good_frame();
        for _ in 0..damages {
            let other = &self.frames[self.rng.below(FRAMES)];
            frame.damage(other, &mut self.rng);
        }
        frame
    }

    /// The frame of a line, and the line, either of them good or damaged.
    fn line(&mut self) -> (Frame, Vec<u8>) {
        let damages = numbers::one_in(&mut self.rng, 4).into();
        let frame = self.frame(damages);
        let mut line = frame.line();
        for _ in 0..self.rng.below(3) {
            damage_line(&mut line, &mut self.rng);
        }
        (frame, line)
    }

    pub fn block<W: Word>(&mut self, function: Function) -> u64 {
        let settings = (
            numbers::box_number(&mut self.rng),
            numbers::rounds(&mut self.rng, W::ROUNDS),
        );
        let words = array::from_fn(|_| numbers::word::<W>(&mut self.rng));
        let call = function.of(Input::new(settings, words));
        self.run(&call, call.need(), &[])
    }

    /// Hands what there is to seal to a call, and gives what it returned.
    fn with_message(&mut self, run: impl FnOnce(&mut Self, SealCall, &[&Part]) -> u64) -> u64 {
        let [label, message] = [
            numbers::label_length(&mut self.rng),
            numbers::message_length(&mut self.rng),
        ]
        .map(|length| {
            let bytes = self.some(length);
            self.part(&bytes)
        });
        let call = SealCall {
            key: frames::key(&mut self.rng),
            serial: numbers::serial(&mut self.rng),
            label: &label,
            message: &message,
        };
        run(self, call, &[&label, &message])
    }

    pub fn seal(&mut self) -> u64 {
        self.with_message(|abuse, call, handed_in| abuse.run(&call, call.need(), handed_in))
    }

    pub fn write_line(&mut self) -> u64 {
        self.with_message(|abuse, call, handed_in| {
            let call = writing(call);
            abuse.run(&call, call.need(), handed_in)
        })
    }

    pub fn open(&mut self) -> u64 {
        let damages = self.rng.below(4);
        let frame = self.frame(damages);
        let label = self.part(&frame.label);
        let sealed = self.part(&frame.sealed);
        let call = OpenCall {
            key: frame.key,
            serial: frame.serial,
            message_length: frame.message_length,
            label: &label,
            sealed: &sealed,
        };
        self.run(&call, frame.message_length as usize, &[&label, &sealed])
    }

    pub fn read_line(&mut self) -> u64 {
        let (_, line) = self.line();
        let line = self.part(&line);
        self.run(&reading(&line), READ, &[&line])
    }

    pub fn open_line(&mut self) -> u64 {
        let (frame, line) = self.line();
        let line = self.part(&line);
        let call = opening(frame.key, &line);
        self.run(&call, frame.message_length as usize, &[&line])
    }
}

/// Runs a call on lent memory that nothing was written to: valgrind notes if the call looks at it, or
/// leaves a byte of its answer unwritten.
fn run_on_unwritten(tally: &mut Tally, call: &impl Call, room: usize, meant: &Outcome) {
    let mut memory = Vec::<MaybeUninit<u8>>::with_capacity(room);
    // SAFETY: there is room for them, and such bytes need not be written.
    unsafe { memory.set_len(room) };
    let lent = opaque(memory.as_mut_slice()) as *mut [MaybeUninit<u8>] as *mut [u8];
    // SAFETY: of these bytes, only those that the call has written are read.
    let lent = unsafe { &mut *lent };
    let answer = call.run(lent);
    let written = lent.get(..meant.written.len());
    let meant = (meant.answer, Some(&meant.written[..]));
    tally.same("lent memory unwritten", call, (answer, written), meant);
}
