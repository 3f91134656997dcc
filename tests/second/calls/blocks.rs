//! The block calls of both ciphers: `kk_schedule`, `kk_turn`, `kk_engine`, `kk_encipher`, `kk_decipher`,
//! and `kk128_schedule` to `kk128_decipher`.

use crate::ffi;
use crate::harness::{self, Call, Given, Outcome};
use crate::qarma::{self, vectors, Key, Schedule};
use crate::qarma128;
use crate::rng::Rng;
use std::array;
use std::fmt::Debug;
use std::mem::size_of;
use std::ops::{Not, RangeInclusive, Shl};

/// The refusals of document 01 that a block call can give.
pub const REFUSED_SETTINGS: u8 = 1;
const REFUSED_ROOM: u8 = 5;

/// The sizes of document 01.
pub const BOXES: RangeInclusive<u64> = 0..=2;

/// Box and rounds, as they are handed in.
pub type Settings = (u64, u64);

/// A word, and the cipher on such words: QARMA-64 or QARMA-128.
pub trait Word:
    Copy + Debug + PartialEq + From<u8> + Not<Output = Self> + Shl<usize, Output = Self> + 'static
{
    /// The rounds of document 01, and of request 3 of document 02.
    const ROUNDS: RangeInclusive<u64>;

    /// The number of the cipher's first function among all C functions.
    const FIRST: u8;

    const SECOND: Second<Self>;
    const LIBRARY: Library<Self>;

    /// The numbers that the word is handed in as, the most significant first.
    fn numbers(self) -> Vec<u64>;

    /// The word of such numbers.
    fn of(numbers: impl FnMut() -> u64) -> Self;
}

/// The second program's functions.
pub struct Second<W> {
    schedule: fn(Key<W>) -> Schedule<W>,
    turn: fn(Schedule<W>) -> Schedule<W>,
    engine: fn(usize, usize, Schedule<W>, W, W) -> W,
    encipher: fn(usize, usize, Key<W>, W, W) -> W,
    decipher: fn(usize, usize, Key<W>, W, W) -> W,
}

/// The library's functions.
pub struct Library<W> {
    schedule: fn(Key<W>, &mut [u8]) -> u64,
    turn: fn(Schedule<W>, &mut [u8]) -> u64,
    engine: fn(u64, u64, Schedule<W>, W, W, &mut [u8]) -> u64,
    encipher: fn(u64, u64, Key<W>, W, W, &mut [u8]) -> u64,
    decipher: fn(u64, u64, Key<W>, W, W, &mut [u8]) -> u64,
}

impl Word for u64 {
    const ROUNDS: RangeInclusive<u64> = 3..=8;
    const FIRST: u8 = 0;
    const SECOND: Second<u64> = Second {
        schedule: qarma::schedule,
        turn: qarma::turn,
        engine: qarma::engine,
        encipher: qarma::encipher,
        decipher: qarma::decipher,
    };
    const LIBRARY: Library<u64> = Library {
        schedule: ffi::schedule,
        turn: ffi::turn,
        engine: ffi::engine,
        encipher: ffi::encipher,
        decipher: ffi::decipher,
    };

    fn numbers(self) -> Vec<u64> {
        vec![self]
    }

    fn of(mut numbers: impl FnMut() -> u64) -> u64 {
        numbers()
    }
}

impl Word for u128 {
    const ROUNDS: RangeInclusive<u64> = 3..=11;
    const FIRST: u8 = 10;
    const SECOND: Second<u128> = Second {
        schedule: qarma128::schedule,
        turn: qarma128::turn,
        engine: qarma128::engine,
        encipher: qarma128::encipher,
        decipher: qarma128::decipher,
    };
    const LIBRARY: Library<u128> = Library {
        schedule: ffi::schedule128,
        turn: ffi::turn128,
        engine: ffi::engine128,
        encipher: ffi::encipher128,
        decipher: ffi::decipher128,
    };

    fn numbers(self) -> Vec<u64> {
        ffi::halves(self).to_vec()
    }

    fn of(mut numbers: impl FnMut() -> u64) -> u128 {
        u128::from(numbers()) << 64 | u128::from(numbers())
    }
}

/// What there is to hand in. A call takes of it what it has parameters for; a key is w0 and k0.
#[derive(Clone, Copy, Debug)]
pub struct Input<W> {
    pub box_number: u64,
    pub rounds: u64,
    pub schedule: Schedule<W>,
    pub tweak: W,
    pub block: W,
}

impl<W: Word> Input<W> {
    pub fn new((box_number, rounds): Settings, words: [W; 6]) -> Self {
        let [w0, w1, k0, k1, tweak, block] = words;
        Self {
            box_number,
            rounds,
            schedule: Schedule { w0, w1, k0, k1 },
            tweak,
            block,
        }
    }

    pub fn random(settings: Settings, rng: &mut Rng) -> Self {
        Self::new(settings, array::from_fn(|_| W::of(|| rng.word())))
    }

    fn key(&self) -> Key<W> {
        let Schedule { w0, k0, .. } = self.schedule;
        Key { w0, k0 }
    }

    /// Box and rounds for the second program, if both are within the sizes.
    fn settings(&self) -> Option<(usize, usize)> {
        let good = BOXES.contains(&self.box_number) && W::ROUNDS.contains(&self.rounds);
        good.then_some((self.box_number as usize, self.rounds as usize))
    }
}

#[derive(Clone, Copy, Debug)]
pub enum Function {
    Schedule,
    Turn,
    Engine,
    Encipher,
    Decipher,
}

/// The functions that take box and rounds.
pub const WITH_SETTINGS: [Function; 3] = [Function::Engine, Function::Encipher, Function::Decipher];

pub const FUNCTIONS: [Function; 5] = [
    Function::Schedule,
    Function::Turn,
    Function::Engine,
    Function::Encipher,
    Function::Decipher,
];

impl Function {
    pub fn of<W>(self, input: Input<W>) -> BlockCall<W> {
        BlockCall {
            function: self,
            input,
        }
    }
}

#[derive(Clone, Copy, Debug)]
pub struct BlockCall<W> {
    function: Function,
    input: Input<W>,
}

impl<W: Word> BlockCall<W> {
    /// How many bytes the answer has.
    pub fn need(&self) -> usize {
        match self.function {
            Function::Schedule | Function::Turn => 4 * size_of::<W>(),
            Function::Engine | Function::Encipher | Function::Decipher => size_of::<W>(),
        }
    }

    /// The second program's answer, unless the settings are refused.
    fn words(&self) -> Option<Vec<W>> {
        let second = W::SECOND;
        let settings = self.input.settings();
        let key = self.input.key();
        let Input {
            schedule,
            tweak,
            block,
            ..
        } = self.input;
        let four = |Schedule { w0, w1, k0, k1 }| Some(vec![w0, w1, k0, k1]);
        match self.function {
            Function::Schedule => four((second.schedule)(key)),
            Function::Turn => four((second.turn)(schedule)),
            Function::Engine => {
                settings.map(|(b, r)| vec![(second.engine)(b, r, schedule, tweak, block)])
            }
            Function::Encipher => {
                settings.map(|(b, r)| vec![(second.encipher)(b, r, key, tweak, block)])
            }
            Function::Decipher => {
                settings.map(|(b, r)| vec![(second.decipher)(b, r, key, tweak, block)])
            }
        }
    }

    /// The library's answer to a call that it takes.
    fn library_words<const N: usize>(&self) -> [W; N] {
        let (_, out) = harness::answer(self, N * size_of::<W>());
        let mut numbers = out.chunks(8).map(|bytes| {
            let bytes = bytes.try_into();
            u64::from_be_bytes(bytes.expect("a part of 8 bytes"))
        });
        array::from_fn(|_| W::of(|| numbers.next().expect("a number")))
    }

    pub fn library_word(&self) -> W {
        let [word] = self.library_words();
        word
    }

    pub fn library_schedule(&self) -> Schedule<W> {
        let [w0, w1, k0, k1] = self.library_words();
        Schedule { w0, w1, k0, k1 }
    }
}

impl<W: Word> Call for BlockCall<W> {
    fn given(&self) -> Given<'_> {
        let Input {
            box_number,
            rounds,
            schedule: Schedule { w0, w1, k0, k1 },
            tweak,
            block,
        } = self.input;
        let (settings, words) = match self.function {
            Function::Schedule => (vec![], vec![w0, k0]),
            Function::Turn => (vec![], vec![w0, w1, k0, k1]),
            Function::Engine => (vec![box_number, rounds], vec![w0, w1, k0, k1, tweak, block]),
            Function::Encipher | Function::Decipher => {
                (vec![box_number, rounds], vec![w0, k0, tweak, block])
            }
        };
        let words = words.into_iter().flat_map(W::numbers);
        Given {
            function: W::FIRST + self.function as u8,
            numbers: settings.into_iter().chain(words).collect(),
            slices: Vec::new(),
        }
    }

    fn run(&self, out: &mut [u8]) -> u64 {
        let library = W::LIBRARY;
        let key = self.input.key();
        let Input {
            box_number,
            rounds,
            schedule,
            tweak,
            block,
        } = self.input;
        match self.function {
            Function::Schedule => (library.schedule)(key, out),
            Function::Turn => (library.turn)(schedule, out),
            Function::Engine => (library.engine)(box_number, rounds, schedule, tweak, block, out),
            Function::Encipher => (library.encipher)(box_number, rounds, key, tweak, block, out),
            Function::Decipher => (library.decipher)(box_number, rounds, key, tweak, block, out),
        }
    }

    fn meant(&self, room: usize) -> Outcome {
        match self.words() {
            None => Outcome::refused(REFUSED_SETTINGS),
            Some(_) if room < self.need() => Outcome::refused(REFUSED_ROOM),
            Some(words) => wrote(&words),
        }
    }
}

/// The nine vectors of appendix A.1 in both directions, and under the engine: calls, and what they answer.
pub fn paper_vectors() -> Vec<(BlockCall<u64>, Outcome)> {
    let Schedule { w0, w1, k0, k1 } = qarma::schedule(vectors::KEY);
    let mut calls = Vec::new();
    for (number, rounds, ciphertext) in vectors::CIPHERTEXTS {
        let settings = (number as u64, rounds as u64);
        let input = |block| Input::new(settings, [w0, w1, k0, k1, vectors::TWEAK, block]);
        let (plain, cipher) = (input(vectors::PLAIN), input(ciphertext));
        calls.extend([
            (Function::Engine.of(plain), wrote(&[ciphertext])),
            (Function::Encipher.of(plain), wrote(&[ciphertext])),
            (Function::Decipher.of(cipher), wrote(&[vectors::PLAIN])),
        ]);
    }
    calls
}

/// The outcome of a call that answers these words.
pub fn wrote<W: Word>(words: &[W]) -> Outcome {
    let numbers = words.iter().flat_map(|word| word.numbers());
    Outcome::wrote(numbers.flat_map(u64::to_be_bytes).collect())
}
