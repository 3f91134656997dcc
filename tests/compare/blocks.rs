//! The block calls of both ciphers: `kk_schedule`, `kk_turn`, `kk_engine`, `kk_encipher`, `kk_decipher`,
//! and `kk128_schedule` to `kk128_decipher`.

use second::calls::blocks::{
    self, wrote, Function, Input, Settings, Word, BOXES, FUNCTIONS, REFUSED_SETTINGS, WITH_SETTINGS,
};
use second::harness::{self, Outcome, Tally};
use second::qarma::Schedule;
use second::rng::Rng;
use std::array;
use std::mem::size_of;
use std::ops::RangeInclusive;

/// Lent memory is tried at every length up to this one.
fn longest<W>() -> usize {
    4 * size_of::<W>() + 8
}

/// All settings within the sizes.
fn good_settings<W: Word>() -> impl Iterator<Item = Settings> {
    BOXES.flat_map(|box_number| W::ROUNDS.map(move |rounds| (box_number, rounds)))
}

/// One input against the second program, and the library against itself on it.
fn compare_input<W: Word>(tally: &mut Tally, input: Input<W>) {
    for function in FUNCTIONS {
        let call = function.of(input);
        tally.compare(&call, call.need());
    }

    let Input {
        schedule, block, ..
    } = input;
    let key_schedule = Function::Schedule.of(input).library_schedule();
    let turn = |schedule| {
        let input = Input { schedule, ..input };
        Function::Turn.of(input).library_schedule()
    };
    let engine = |schedule, block| {
        let input = Input {
            schedule,
            block,
            ..input
        };
        Function::Engine.of(input).library_word()
    };
    let encipher = |block| {
        let input = Input { block, ..input };
        Function::Encipher.of(input).library_word()
    };
    let decipher = |block| {
        let input = Input { block, ..input };
        Function::Decipher.of(input).library_word()
    };

    let turned = turn(schedule);
    let engine_undone = engine(turned, engine(schedule, block));
    let turned_undone = engine(schedule, engine(turned, block));
    tally.same("turning twice", &input, turn(turned), schedule);
    tally.same("engine, then turned", &input, engine_undone, block);
    tally.same("turned, then engine", &input, turned_undone, block);

    let enciphered = encipher(block);
    let deciphered = decipher(block);
    let by_engine = engine(key_schedule, block);
    let by_turned = engine(turn(key_schedule), block);
    tally.same("encipher by engine", &input, enciphered, by_engine);
    tally.same("decipher by turned", &input, deciphered, by_turned);
    tally.same("encipher, decipher", &input, decipher(enciphered), block);
    tally.same("decipher, encipher", &input, encipher(deciphered), block);
}

/// So many inputs of random words for each of the settings; in four of eight one or both key halves are
/// zero, or both all ones.
fn random_inputs<W: Word>(tally: &mut Tally, inputs: usize) {
    let (zero, all_ones) = (W::from(0), !W::from(0));
    let mut rng = Rng::new(1);
    for i in 0..inputs {
        for settings in good_settings::<W>() {
            let mut input = Input::random(settings, &mut rng);
            let Schedule { w0, k0, .. } = &mut input.schedule;
            match i % 8 {
                0 => *w0 = zero,
                1 => *k0 = zero,
                2 => (*w0, *k0) = (zero, zero),
                3 => (*w0, *k0) = (all_ones, all_ones),
                _ => {}
            }
            compare_input(tally, input);
        }
    }
}

/// Each bit of each word by itself: set among zeros, and clear among ones.
fn single_bits<W: Word>(tally: &mut Tally) {
    for settings in good_settings::<W>() {
        for word in 0..6 {
            for bit in 0..8 * size_of::<W>() {
                let mut words = [W::from(0); 6];
                words[word] = W::from(1) << bit;
                compare_input(tally, Input::new(settings, words));
                compare_input(tally, Input::new(settings, words.map(|word| !word)));
            }
        }
    }
}

/// Every choice of zero or all ones for each of the six words.
fn zeros_and_ones<W: Word>(tally: &mut Tally) {
    let words = [W::from(0), !W::from(0)];
    for settings in good_settings::<W>() {
        for choice in 0..1 << 6 {
            let words = array::from_fn(|i| words[choice >> i & 1]);
            compare_input(tally, Input::new(settings, words));
        }
    }
}

/// Every length of lent memory, under settings within the sizes and outside.
fn lengths<W: Word>(tally: &mut Tally) {
    let mut rng = Rng::new(2);
    let more = W::ROUNDS.end() + 1;
    for settings in good_settings::<W>().chain([(3, 7), (1, 2), (0, more), (3, more)]) {
        for room in 0..=longest::<W>() {
            let input = Input::<W>::random(settings, &mut rng);
            for function in FUNCTIONS {
                tally.compare(&function.of(input), room);
            }
        }
    }
}

/// Numbers outside a size: those near it, and those that come inside when cut to fewer bits or
/// taken with a sign.
fn outside(size: RangeInclusive<u64>) -> Vec<u64> {
    let near = (0..=16).filter(|number| !size.contains(number));
    let far = [127, 128, 255, u64::MAX];
    let cut = [8, 16, 31, 32, 33, 48, 56, 62, 63]
        .into_iter()
        .flat_map(|bit| (0..=*size.end()).map(move |low| (1 << bit) + low));
    let negative = (1..=*size.end()).map(u64::wrapping_neg);
    near.chain(far).chain(cut).chain(negative).collect()
}

/// Box, rounds or both outside the sizes are refused as such, however short the lent memory.
fn bad_settings<W: Word>(tally: &mut Tally) {
    let bad_boxes = outside(BOXES);
    let bad_rounds = outside(W::ROUNDS);
    let all_boxes: Vec<u64> = BOXES.chain(bad_boxes.iter().copied()).collect();
    let box_bad = bad_boxes
        .iter()
        .flat_map(|&b| W::ROUNDS.map(move |r| (b, r)));
    let rounds_bad = all_boxes
        .iter()
        .flat_map(|&b| bad_rounds.iter().map(move |&r| (b, r)));

    let mut rng = Rng::new(3);
    for settings in box_bad.chain(rounds_bad) {
        let input = Input::<W>::random(settings, &mut rng);
        for room in [0, size_of::<W>() - 1, size_of::<W>(), longest::<W>()] {
            for function in WITH_SETTINGS {
                let refused = Outcome::refused(REFUSED_SETTINGS);
                tally.expect(&function.of(input), room, &refused);
            }
        }
    }
}

/// The nine vectors of appendix A.1 in both directions.
fn paper_vectors(tally: &mut Tally) {
    for (call, meant) in blocks::paper_vectors() {
        tally.expect(&call, 8, &meant);
    }
}

/// What a function that writes a schedule answers, of one that is handed in.
fn example<W: Word>(tally: &mut Tally, function: Function, schedule: [W; 4], meant: [W; 4]) {
    let ([w0, w1, k0, k1], zero) = (schedule, W::from(0));
    let call = function.of(Input::new((1, 7), [w0, w1, k0, k1, zero, zero]));
    tally.expect(&call, call.need(), &wrote(&meant));
}

/// Words w0 with their w1, a k0, α, and a k1 with its mix.
struct Known<W> {
    outer: [(W, W); 3],
    k0: W,
    alpha: W,
    mix: (W, W),
}

/// Those of P1 to P3, P11 and P12 of document 01.
const KNOWN: Known<u64> = Known {
    outer: [
        (1, 0x8000000000000000),
        (0x8000000000000000, 0x4000000000000001),
        (u64::MAX, 0xFFFFFFFFFFFFFFFE),
    ],
    k0: 0x0123456789ABCDEF,
    alpha: 0xC0AC29B7C97C50DD,
    mix: (0x1000000000000000, 0x0000200040002000),
};

/// Such words of QARMA-128, worked out by hand from 2.2 and 3.1.2 of the paper. A bit of cell 0 is mixed into cells 4, 8 and 12, rotated by 5, 4 and 1.
const KNOWN128: Known<u128> = Known {
    outer: [
        (1, 1 << 127),
        (1 << 127, 1 << 126 | 1),
        (u128::MAX, u128::MAX - 1),
    ],
    k0: 0x0123456789ABCDEF_FEDCBA9876543210,
    alpha: 0x243F6A8885A308D3_13198A2E03707344,
    mix: (1 << 120, 0x0000000020000000_1000000002000000),
};

/// The examples of document 01 that block calls can show, and the like for QARMA-128.
fn examples<W: Word>(tally: &mut Tally, known: Known<W>) {
    let [zero, five, nine] = [0, 5, 9].map(W::from);
    let Known {
        outer, k0, alpha, ..
    } = known;

    // P1 to P3
    for (w0, w1) in outer {
        let schedule = [w0, zero, k0, zero];
        example(tally, Function::Schedule, schedule, [w0, w1, k0, k0]);
    }

    // P11, P12
    let (k1, mixed) = known.mix;
    for (schedule, turned) in [
        ([zero; 4], [zero, zero, alpha, zero]),
        ([five, nine, alpha, k1], [nine, five, zero, mixed]),
    ] {
        example(tally, Function::Turn, schedule, turned);
    }

    // The least and the most rounds taken, one less and one more refused 1
    let (least, most, taken) = (*W::ROUNDS.start(), *W::ROUNDS.end(), size_of::<W>());
    for box_number in BOXES {
        for (rounds, answer) in [
            (least - 1, 1 << 56),
            (least, taken as u64),
            (most, taken as u64),
            (most + 1, 1 << 56),
        ] {
            for function in WITH_SETTINGS {
                let call = function.of(Input::new((box_number, rounds), [zero; 6]));
                let (found, _) = harness::answer(&call, taken);
                tally.same("rounds at the limits", &call, found, answer);
            }
        }
    }
}

/// All that is tried of either cipher, with so many random inputs for each of its settings.
fn compare_cipher<W: Word>(tally: &mut Tally, known: Known<W>, inputs: usize) {
    examples(tally, known);
    bad_settings::<W>(tally);
    lengths::<W>(tally);
    zeros_and_ones::<W>(tally);
    single_bits::<W>(tally);
    random_inputs::<W>(tally, inputs);
}

pub fn compare(tally: &mut Tally) {
    paper_vectors(tally);
    compare_cipher(tally, KNOWN, 6_000);
    compare_cipher(tally, KNOWN128, 4_000);
}
