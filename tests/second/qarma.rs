//! QARMA-64 cell by cell, from source document 000: section 2, the boxes of section 3.3 and the
//! matrix M = Q = circ(0, ρ, ρ², ρ) of section 3.1.2. `qarma128` uses what is the same in QARMA-128.

use std::array;

/// Sixteen cells, here of 4 bits, the most significant first, row by row in a 4 by 4 square (2.1).
pub(crate) type Cells = [u8; 16];

/// A 4-bit box: its outputs for the inputs 0 to 15.
pub(crate) type Box4 = [u8; 16];

/// The key K = w0 || k0 (2.2).
#[derive(Clone, Copy, Debug, PartialEq, Eq)]
pub struct Key<Word = u64> {
    pub w0: Word,
    pub k0: Word,
}

/// The four words that the engine runs on: outer words w0 and w1, core word k0, centre word k1.
#[derive(Clone, Copy, Debug, PartialEq, Eq)]
pub struct Schedule<Word = u64> {
    pub w0: Word,
    pub w1: Word,
    pub k0: Word,
    pub k1: Word,
}

/// τ: new cell i is old cell `SHUFFLE[i]` (2.3).
pub(crate) const SHUFFLE: [usize; 16] = [0, 11, 6, 13, 10, 1, 12, 7, 5, 14, 3, 8, 15, 4, 9, 2];

/// h: new tweak cell i is old cell `TWEAK_SHUFFLE[i]` (2.4).
pub(crate) const TWEAK_SHUFFLE: [usize; 16] =
    [6, 5, 14, 15, 0, 1, 2, 3, 7, 12, 13, 4, 8, 9, 10, 11];

/// The tweak cells that ω updates (2.4).
pub(crate) const OMEGA_CELLS: [usize; 7] = [0, 1, 3, 4, 8, 11, 13];

/// σ0, σ1 and σ2 (3.3).
pub(crate) const BOXES: [Box4; 3] = [
    [0, 14, 2, 10, 9, 15, 8, 11, 6, 4, 3, 7, 13, 12, 1, 5],
    [10, 13, 14, 6, 15, 7, 3, 5, 9, 8, 0, 12, 11, 1, 2, 4],
    [11, 6, 8, 15, 12, 0, 9, 14, 3, 7, 4, 5, 13, 2, 1, 10],
];

/// Their inverses: σ0 and σ1 undo themselves (3.3).
pub(crate) const INVERSE_BOXES: [Box4; 3] = [
    BOXES[0],
    BOXES[1],
    [5, 14, 13, 8, 10, 11, 1, 9, 2, 6, 15, 0, 4, 12, 7, 3],
];

/// c0 to c7 (Table 1).
pub(crate) const CONSTANTS: [Cells; 8] = [
    cells(0x0000000000000000),
    cells(0x13198A2E03707344),
    cells(0xA4093822299F31D0),
    cells(0x082EFA98EC4E6C89),
    cells(0x452821E638D01377),
    cells(0xBE5466CF34E90C6C),
    cells(0x3F84D5B5B5470917),
    cells(0x9216D5D98979FB1B),
];

/// α (Table 1).
pub(crate) const ALPHA: u64 = 0xC0AC29B7C97C50DD;

pub(crate) const fn cells(word: u64) -> Cells {
    let mut cells = [0; 16];
    let mut i = 0;
    while i < 16 {
        cells[i] = (word >> (60 - 4 * i)) as u8 & 15;
        i += 1;
    }
    cells
}

fn word(cells: Cells) -> u64 {
    cells
        .iter()
        .fold(0, |word, &cell| word << 4 | u64::from(cell))
}

pub(crate) fn add(a: Cells, b: Cells) -> Cells {
    array::from_fn(|i| a[i] ^ b[i])
}

pub(crate) fn shuffle(cells: Cells, from: &[usize; 16]) -> Cells {
    array::from_fn(|i| cells[from[i]])
}

pub(crate) fn unshuffle(cells: Cells, from: &[usize; 16]) -> Cells {
    let mut old = [0; 16];
    for i in 0..16 {
        old[from[i]] = cells[i];
    }
    old
}

/// ρ to the power `by`: a cell rotated left within its 4 bits (3.1).
fn rotate(cell: u8, by: u32) -> u8 {
    (cell << by | cell >> (4 - by)) & 15
}

/// Each column multiplied by circ(0, ρ, ρ², ρ), which undoes itself (3.1.2).
fn mix(cells: Cells) -> Cells {
    let mut mixed = [0; 16];
    for column in 0..4 {
        let cell = |row: usize| cells[4 * (row % 4) + column];
        for row in 0..4 {
            mixed[4 * row + column] =
                rotate(cell(row + 1), 1) ^ rotate(cell(row + 2), 2) ^ rotate(cell(row + 3), 1);
        }
    }
    mixed
}

fn substitute(cells: Cells, sigma: &Box4) -> Cells {
    cells.map(|cell| sigma[usize::from(cell)])
}

/// ω: (b3, b2, b1, b0) becomes (b0 + b1, b3, b2, b1) (2.4).
fn omega(cell: u8) -> u8 {
    let (b0, b1) = (cell & 1, cell >> 1 & 1);
    (b0 ^ b1) << 3 | cell >> 1
}

/// The inverse of ω: (b3, b2, b1, b0) becomes (b2, b1, b0, b3 + b0).
fn omega_inverse(cell: u8) -> u8 {
    let (b0, b3) = (cell & 1, cell >> 3);
    (cell << 1 & 15) | (b3 ^ b0)
}

/// T becomes ω(h(T)) (2.4).
fn step(tweak: Cells) -> Cells {
    let mut tweak = shuffle(tweak, &TWEAK_SHUFFLE);
    for i in OMEGA_CELLS {
        tweak[i] = omega(tweak[i]);
    }
    tweak
}

/// The inverse of `step` (2.5).
fn step_back(mut tweak: Cells) -> Cells {
    for i in OMEGA_CELLS {
        tweak[i] = omega_inverse(tweak[i]);
    }
    unshuffle(tweak, &TWEAK_SHUFFLE)
}

/// R (2.3).
fn forward(state: Cells, tweakey: Cells, sigma: &Box4) -> Cells {
    let state = shuffle(add(state, tweakey), &SHUFFLE);
    substitute(mix(state), sigma)
}

/// R without ShuffleCells and MixColumns (2.3).
fn short_forward(state: Cells, tweakey: Cells, sigma: &Box4) -> Cells {
    substitute(add(state, tweakey), sigma)
}

/// The inverse of R; takes the inverse box (2.5).
fn backward(state: Cells, tweakey: Cells, inverse: &Box4) -> Cells {
    let state = mix(substitute(state, inverse));
    add(unshuffle(state, &SHUFFLE), tweakey)
}

/// The inverse of the short R; takes the inverse box (2.5).
fn short_backward(state: Cells, tweakey: Cells, inverse: &Box4) -> Cells {
    add(substitute(state, inverse), tweakey)
}

/// The pseudo-reflector P (2.6).
fn reflect(state: Cells, k1: Cells) -> Cells {
    let state = mix(shuffle(state, &SHUFFLE));
    unshuffle(add(state, k1), &SHUFFLE)
}

/// Lines 3 to 13 of Figure 3 on four free words. Box 0 to 2, rounds 0 to 8.
pub fn engine(box_number: usize, rounds: usize, schedule: Schedule, tweak: u64, block: u64) -> u64 {
    let sigma = &BOXES[box_number];
    let inverse = &INVERSE_BOXES[box_number];
    let w0 = cells(schedule.w0);
    let w1 = cells(schedule.w1);
    let k0 = cells(schedule.k0);
    let k0_alpha = cells(schedule.k0 ^ ALPHA);
    let k1 = cells(schedule.k1);
    let mut tweak = cells(tweak);

    let mut state = add(cells(block), w0);
    for (i, &constant) in CONSTANTS[..rounds].iter().enumerate() {
        let tweakey = add(add(k0, tweak), constant);
        state = if i == 0 {
            short_forward(state, tweakey, sigma)
        } else {
            forward(state, tweakey, sigma)
        };
        tweak = step(tweak);
    }
    state = forward(state, add(w1, tweak), sigma);
    state = reflect(state, k1);
    state = backward(state, add(w0, tweak), inverse);
    for (i, &constant) in CONSTANTS[..rounds].iter().enumerate().rev() {
        tweak = step_back(tweak);
        let tweakey = add(add(k0_alpha, tweak), constant);
        state = if i == 0 {
            short_backward(state, tweakey, inverse)
        } else {
            backward(state, tweakey, inverse)
        };
    }
    word(add(state, w1))
}

/// o(w0): w0 rotated right by 1, plus w0 shifted right by 63 (2.2).
fn outer(w0: u64) -> u64 {
    w0.rotate_right(1) ^ (w0 >> 63)
}

/// Line 2 of Figure 3, case ENC.
pub fn schedule(key: Key) -> Schedule {
    Schedule {
        w0: key.w0,
        w1: outer(key.w0),
        k0: key.k0,
        k1: key.k0,
    }
}

/// Line 2 of Figure 3, case DEC.
fn deciphering_schedule(key: Key) -> Schedule {
    Schedule {
        w0: outer(key.w0),
        w1: key.w0,
        k0: key.k0 ^ ALPHA,
        k1: word(mix(cells(key.k0))),
    }
}

/// The schedule under which the engine undoes what it did under this one (2.2, 2.6).
pub fn turn(schedule: Schedule) -> Schedule {
    Schedule {
        w0: schedule.w1,
        w1: schedule.w0,
        k0: schedule.k0 ^ ALPHA,
        k1: word(mix(cells(schedule.k1))),
    }
}

/// Figure 3, case ENC.
pub fn encipher(box_number: usize, rounds: usize, key: Key, tweak: u64, block: u64) -> u64 {
    engine(box_number, rounds, schedule(key), tweak, block)
}

/// Figure 3, case DEC.
pub fn decipher(box_number: usize, rounds: usize, key: Key, tweak: u64, block: u64) -> u64 {
    engine(box_number, rounds, deciphering_schedule(key), tweak, block)
}

/// Appendix A.1: one plaintext, tweak and key, nine ciphertexts.
pub mod vectors {
    use super::Key;

    pub const PLAIN: u64 = 0xFB623599DA6E8127;
    pub const TWEAK: u64 = 0x477D469DEC0B8762;
    pub const KEY: Key = Key {
        w0: 0x84BE85CE9804E94B,
        k0: 0xEC2802D4E0A488E9,
    };

    /// Box number, rounds and ciphertext.
    pub const CIPHERTEXTS: [(usize, usize, u64); 9] = [
        (0, 5, 0x3EE99A6C82AF0C38),
        (1, 5, 0x544B0AB95BDA7C3A),
        (2, 5, 0xC003B93999B33765),
        (0, 6, 0x9F5C41EC525603C9),
        (1, 6, 0xA512DD1E4E3EC582),
        (2, 6, 0x270A787275C48D10),
        (0, 7, 0xBCAF6C89DE930765),
        (1, 7, 0xEDF67FF370A483F2),
        (2, 7, 0x5C06A7501B63B2FD),
    ];
}

#[cfg(test)]
mod tests {
    use super::vectors::{CIPHERTEXTS, KEY, PLAIN, TWEAK};
    use super::*;

    #[test]
    fn vectors_of_appendix_a1() {
        for (box_number, rounds, ciphertext) in CIPHERTEXTS {
            let enciphered = encipher(box_number, rounds, KEY, TWEAK, PLAIN);
            let deciphered = decipher(box_number, rounds, KEY, TWEAK, ciphertext);
            assert_eq!(enciphered, ciphertext, "box {box_number}, r = {rounds}");
            assert_eq!(deciphered, PLAIN, "box {box_number}, r = {rounds}");
        }
    }

    #[test]
    fn every_inverse_undoes() {
        for (sigma, inverse) in BOXES.iter().zip(&INVERSE_BOXES) {
            let all = array::from_fn(|i| i as u8);
            assert_eq!(substitute(substitute(all, sigma), inverse), all);
        }
        for i in 0..64 {
            let bit = cells(1 << i);
            assert_eq!(mix(mix(bit)), bit);
            assert_eq!(step_back(step(bit)), bit);
            assert_eq!(unshuffle(shuffle(bit, &SHUFFLE), &SHUFFLE), bit);
        }
    }

    /// P4 to P10 of document 01.
    #[test]
    fn examples_of_the_parts() {
        assert_eq!(
            word(shuffle(cells(0x0123456789ABCDEF), &SHUFFLE)),
            0x0B6DA1C75E38F492
        );
        assert_eq!(word(mix(cells(0x1000000000000000))), 0x0000200040002000);
        assert_eq!(word(mix(cells(0x0000200040002000))), 0x1000000000000000);
        assert_eq!((omega(1), omega(3)), (8, 1));
        assert_eq!(word(step(cells(0x0010000000000000))), 0x0000001000000000);
        assert_eq!(word(step(cells(0x0000001000000000))), 0x8000000000000000);
    }
}
