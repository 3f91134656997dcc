//! The library through C beside the second program, one thread, box 1, r = 7; QARMA-128 at r = 11.
//!
//!     bench                                 times both in one run
//!     bench CALL library|second MADE COUNT  makes inputs and works on so many of them, for its
//!                                           instructions to be counted
//!
//! Both are built for release: the second program at rustc's opt-level 3, the library as
//! `rt lib` builds it. By both alike, an input is taken from a slice (a word for a block, bytes
//! for a frame) and its answer written into its own place of an output slice, a block's as 8 bytes or 16.
//! The output is zeros when it is made and is not cleared between passes: each pass writes the same
//! bytes of it. All memory is warm. An input's index is the tweak of a block and the serial of a frame.

use second::ffi;
use second::frame::{self, Refusal};
use second::opaque;
use second::qarma::{self, Key, Schedule};
use second::qarma128;
use second::rng::Rng;
use std::env::{self, consts::ARCH};
use std::time::Instant;

/// How often each run is timed; library and second program take turns at going first.
const REPETITIONS: usize = 200;

/// Blocks in one timing: a shorter run is passed over until it comes to as many.
const BLOCKS: usize = 4096;

/// Frames in one timing: those of as many blocks, labels and tags not counted.
const FRAMES: usize = BLOCKS * 8 / MESSAGE;

/// Bytes of a frame's message, of its label and of its sealed bytes.
const MESSAGE: usize = 1_024;
const LABEL: usize = 32;
const SEALED: usize = MESSAGE + 8;

/// Bytes of a message with as many sealed bytes whose last block is filled.
const FILLED: u64 = MESSAGE as u64 - 1;

/// What is known at run time only. The settings are box and rounds; QARMA-128 has its own.
struct Given {
    settings: (usize, usize),
    key: Key,
    schedule: Schedule,
    label: [u8; LABEL],
    settings128: (usize, usize),
    key128: qarma128::Key,
    schedule128: qarma128::Schedule,
}

/// Works on one input, given its index, the input and the place of its answer.
type One<I> = fn(&Given, u64, &I, &mut [u8]);

/// A call on an input of type I, the bytes of its answer, and its inputs.
struct Call<I> {
    name: &'static str,
    answer: usize,
    library: One<I>,
    second: One<I>,
    inputs: fn(&Given, usize) -> Vec<I>,
}

const ENCIPHER: Call<u64> = Call {
    name: "kk_encipher",
    answer: 8,
    library: |given, tweak, &block, place| {
        let (b, r) = given.settings;
        ffi::encipher(b as u64, r as u64, given.key, tweak, block, place);
    },
    second: |given, tweak, &block, place| {
        let (b, r) = given.settings;
        put(qarma::encipher(b, r, given.key, tweak, block), place);
    },
    inputs: blocks,
};

const ENGINE: Call<u64> = Call {
    name: "kk_engine",
    answer: 8,
    library: |given, tweak, &block, place| {
        let (b, r) = given.settings;
        ffi::engine(b as u64, r as u64, given.schedule, tweak, block, place);
    },
    second: |given, tweak, &block, place| {
        let (b, r) = given.settings;
        put(qarma::engine(b, r, given.schedule, tweak, block), place);
    },
    inputs: blocks,
};

const ENCIPHER128: Call<u128> = Call {
    name: "kk128_encipher",
    answer: 16,
    library: |given, tweak, &block, place| {
        let (b, r) = given.settings128;
        ffi::encipher128(b as u64, r as u64, given.key128, tweak.into(), block, place);
    },
    second: |given, tweak, &block, place| {
        let (b, r) = given.settings128;
        let answer = qarma128::encipher(b, r, given.key128, tweak.into(), block);
        place.copy_from_slice(&answer.to_be_bytes());
    },
    inputs: blocks128,
};

const ENGINE128: Call<u128> = Call {
    name: "kk128_engine",
    library: |given, tweak, &block, place| {
        let (b, r) = given.settings128;
        ffi::engine128(
            b as u64,
            r as u64,
            given.schedule128,
            tweak.into(),
            block,
            place,
        );
    },
    second: |given, tweak, &block, place| {
        let (b, r) = given.settings128;
        let answer = qarma128::engine(b, r, given.schedule128, tweak.into(), block);
        place.copy_from_slice(&answer.to_be_bytes());
    },
    ..ENCIPHER128
};

const SEAL: Call<[u8; MESSAGE]> = Call {
    name: "kk_seal",
    answer: SEALED,
    library: |given, serial, message, place| {
        let answer = ffi::seal(given.key, serial, &given.label, message, place);
        assert_eq!(answer, SEALED as u64);
    },
    second: |given, serial, message, place| {
        let answer = frame::seal(given.key, serial, &given.label, message, place);
        assert_eq!(answer, Ok(SEALED));
    },
    inputs: messages,
};

const OPEN: Call<[u8; SEALED]> = Call {
    name: "kk_open",
    answer: MESSAGE,
    library: |given, serial, sealed, place| {
        let length = MESSAGE as u64;
        let answer = ffi::open(given.key, serial, length, &given.label, sealed, place);
        assert_eq!(answer, length);
    },
    second: |given, serial, sealed, place| {
        let length = MESSAGE as u64;
        let answer = frame::open(given.key, serial, length, &given.label, sealed, place);
        assert_eq!(answer, Ok(MESSAGE));
    },
    inputs: sealed,
};

/// Opening frames whose last block is filled, as they were sealed, and as they are refused: `inputs` has
/// a wrong tag, or a wrong fill under the tag that belongs to it. Nothing is written for these.
const OPEN_FILLED: Call<[u8; SEALED]> = Call {
    name: "as sealed",
    answer: MESSAGE,
    library: |given, serial, sealed, place| {
        let answer = ffi::open(given.key, serial, FILLED, &given.label, sealed, place);
        assert_eq!(answer, FILLED);
    },
    second: |given, serial, sealed, place| {
        let answer = frame::open(given.key, serial, FILLED, &given.label, sealed, place);
        assert_eq!(answer, Ok(FILLED as usize));
    },
    inputs: |given, count| filled(given, count, 0, 0),
};

const OPEN_WRONG_TAG: Call<[u8; SEALED]> = Call {
    name: "wrong tag",
    library: |given, serial, sealed, place| {
        let answer = ffi::open(given.key, serial, FILLED, &given.label, sealed, place);
        assert_eq!(answer, (Refusal::Tag as u64) << 56);
    },
    second: |given, serial, sealed, place| {
        let answer = frame::open(given.key, serial, FILLED, &given.label, sealed, place);
        assert_eq!(answer, Err(Refusal::Tag));
    },
    inputs: |given, count| filled(given, count, 0, 1),
    ..OPEN_FILLED
};

const OPEN_WRONG_FILL: Call<[u8; SEALED]> = Call {
    name: "wrong fill",
    inputs: |given, count| filled(given, count, 1, 0),
    ..OPEN_WRONG_TAG
};

fn put(answer: u64, place: &mut [u8]) {
    place.copy_from_slice(&answer.to_be_bytes());
}

/// Random blocks.
fn blocks(_: &Given, count: usize) -> Vec<u64> {
    let mut rng = Rng::new(7);
    (0..count).map(|_| rng.word()).collect()
}

/// Random blocks of 128 bits.
fn blocks128(_: &Given, count: usize) -> Vec<u128> {
    let mut rng = Rng::new(9);
    (0..count).map(|_| word128(&mut rng)).collect()
}

fn word128(rng: &mut Rng) -> u128 {
    u128::from(rng.word()) << 64 | u128::from(rng.word())
}

/// Random messages.
fn messages(_: &Given, count: usize) -> Vec<[u8; MESSAGE]> {
    let mut rng = Rng::new(8);
    let message = |_| rng.bytes(MESSAGE).try_into().expect("as many bytes");
    (0..count).map(message).collect()
}

/// The same messages, sealed by the second program.
fn sealed(given: &Given, count: usize) -> Vec<[u8; SEALED]> {
    let mut out = vec![[0; SEALED]; count];
    for (serial, message) in messages(given, count).iter().enumerate() {
        (SEAL.second)(given, serial as u64, message, &mut out[serial]);
    }
    out
}

/// Frames of these messages without their last byte. `last_block` is added to the last block before
/// sealing, `tag` to the last byte of the tag after it.
fn filled(given: &Given, count: usize, last_block: u64, tag: u8) -> Vec<[u8; SEALED]> {
    let seal = |(serial, message): (usize, [u8; MESSAGE])| {
        let length = FILLED as usize;
        let mut blocks: Vec<u64> = frame::blocks(&message[..length]).collect();
        *blocks.last_mut().expect("a block") ^= last_block;
        let blocks = blocks.into_iter();
        let sealed = frame::seal_blocks(given.key, serial as u64, &given.label, length, blocks);
        let mut sealed: [u8; SEALED] = sealed.try_into().expect("as many bytes");
        sealed[SEALED - 1] ^= tag;
        sealed
    };
    messages(given, count)
        .into_iter()
        .enumerate()
        .map(seal)
        .collect()
}

impl<I> Call<I> {
    /// Works on each input once.
    fn pass(&self, given: &Given, one: One<I>, inputs: &[I], out: &mut [u8]) {
        let places = opaque(out).chunks_exact_mut(self.answer);
        for (index, (input, place)) in inputs.iter().zip(places).enumerate() {
            one(given, index as u64, input, place);
        }
    }

    /// Nanoseconds an input, over so many of them.
    fn time(&self, given: &Given, one: One<I>, inputs: &[I], total: usize, out: &mut [u8]) -> f64 {
        let passes = total / inputs.len();
        let start = Instant::now();
        for _ in 0..passes {
            self.pass(given, one, inputs, out);
        }
        start.elapsed().as_nanos() as f64 / (passes * inputs.len()) as f64
    }

    /// Times both on a run of `count` inputs, passed over until it comes to `total`, prints their best
    /// and median times, and gives the output.
    fn row(&self, given: &Given, count: usize, total: usize) -> Vec<u8> {
        let inputs = (self.inputs)(given, count);
        let mut library_out = vec![0; self.answer * count];
        let mut second_out = library_out.clone();
        let mut library_times = Vec::new();
        let mut second_times = Vec::new();
        let mut library =
            || library_times.push(self.time(given, self.library, &inputs, total, &mut library_out));
        let mut second =
            || second_times.push(self.time(given, self.second, &inputs, total, &mut second_out));
        for _ in 0..REPETITIONS / 2 {
            library();
            second();
            second();
            library();
        }
        assert_eq!(
            library_out, second_out,
            "library and second program disagree"
        );

        library_times.sort_by(f64::total_cmp);
        second_times.sort_by(f64::total_cmp);
        let width = 19 - self.name.len();
        print!("{}{count:>width$}", self.name);
        for at in [0, REPETITIONS / 2] {
            let (library, second) = (library_times[at], second_times[at]);
            print!("  {library:>8.1} {second:>8.1} {:>6.2}", second / library);
        }
        println!();
        library_out
    }

    /// Makes inputs and works on so many of them, by the program that the words name.
    fn work(&self, given: &Given, [program, made, count]: [&str; 3]) {
        let one = match program {
            "library" => self.library,
            "second" => self.second,
            _ => panic!("library or second"),
        };
        let number = |word: &str| word.parse().expect("a number");
        let inputs = (self.inputs)(given, number(made));
        let mut out = vec![0; self.answer * inputs.len()];
        self.pass(given, one, &inputs[..number(count)], &mut out);
    }
}

fn times(given: &Given) {
    if ARCH != "x86_64" {
        println!("library: its LLVM module compiled for {ARCH}, where the archive is for x86_64");
    }
    println!("ns a block          ------- best ---------  ------ median --------");
    println!("call         blocks   library   second  ratio   library   second  ratio");
    for count in [BLOCKS, 8] {
        ENCIPHER.row(given, count, BLOCKS);
        ENGINE.row(given, count, BLOCKS);
    }
    for count in [BLOCKS, 8] {
        ENCIPHER128.row(given, count, BLOCKS);
        ENGINE128.row(given, count, BLOCKS);
    }
    println!();
    println!("ns a frame, message of {MESSAGE} bytes and label of {LABEL}");
    println!("                    ------- best ---------  ------ median --------");
    println!("call         frames   library   second  ratio   library   second  ratio");
    SEAL.row(given, FRAMES, FRAMES);
    let opened = OPEN.row(given, FRAMES, FRAMES);
    assert_eq!(opened, messages(given, FRAMES).concat());
    println!();
    println!("ns for kk_open of a frame, message of {FILLED} bytes and label of {LABEL}");
    println!("                    ------- best ---------  ------ median --------");
    println!("frame        frames   library   second  ratio   library   second  ratio");
    for call in [OPEN_FILLED, OPEN_WRONG_TAG, OPEN_WRONG_FILL] {
        call.row(given, FRAMES, FRAMES);
    }
}

fn main() {
    let mut rng = Rng::new(1);
    let key = opaque(Key {
        w0: rng.word(),
        k0: rng.word(),
    });
    let label = rng.bytes(LABEL).try_into().expect("as many bytes");
    let key128 = opaque(Key {
        w0: word128(&mut rng),
        k0: word128(&mut rng),
    });
    let given = Given {
        settings: opaque((1, 7)),
        key,
        schedule: opaque(qarma::schedule(key)),
        label: opaque(label),
        settings128: opaque((1, 11)),
        key128,
        schedule128: opaque(qarma128::schedule(key128)),
    };
    println!("second program: {} for {ARCH}", env!("RUSTC_VERSION"));
    let words: Vec<String> = env::args().skip(1).collect();
    let words: Vec<&str> = words.iter().map(String::as_str).collect();
    match words[..] {
        [] => times(&given),
        ["kk_encipher", a, b, c] => ENCIPHER.work(&given, [a, b, c]),
        ["kk_engine", a, b, c] => ENGINE.work(&given, [a, b, c]),
        ["kk128_encipher", a, b, c] => ENCIPHER128.work(&given, [a, b, c]),
        ["kk128_engine", a, b, c] => ENGINE128.work(&given, [a, b, c]),
        ["kk_seal", a, b, c] => SEAL.work(&given, [a, b, c]),
        ["kk_open", a, b, c] => OPEN.work(&given, [a, b, c]),
        _ => panic!("none or CALL library|second MADE COUNT"),
    }
}
