//! QARMA-128 cell by cell, from source document 000: section 2, the 8-bit boxes of section 3.4 and the
//! matrix M = Q = circ(0, ρ, ρ⁴, ρ⁵) of section 3.1.2. Shuffles and 4-bit boxes are those of `qarma`.

use crate::qarma::{self, add, shuffle, unshuffle, Box4, Cells};
use crate::qarma::{OMEGA_CELLS, SHUFFLE, TWEAK_SHUFFLE};

/// An 8-bit box: its outputs for the inputs 0 to 255.
type Box8 = [u8; 256];

/// The key K = w0 || k0 (2.2).
pub type Key = qarma::Key<u128>;

/// The four words that the engine runs on: outer words w0 and w1, core word k0, centre word k1.
pub type Schedule = qarma::Schedule<u128>;

/// Σ made of σ0, of σ1 and of σ2 (3.4).
static BOXES: [Box8; 3] = [
    wire(&qarma::BOXES[0]),
    wire(&qarma::BOXES[1]),
    wire(&qarma::BOXES[2]),
];

/// Their inverses (3.4).
static INVERSE_BOXES: [Box8; 3] = [
    unwire(&qarma::INVERSE_BOXES[0]),
    unwire(&qarma::INVERSE_BOXES[1]),
    unwire(&qarma::INVERSE_BOXES[2]),
];

/// c0 to c10 (Table 2).
const CONSTANTS: [Cells; 11] = [
    cells(0x0000000000000000_0000000000000000),
    cells(0xA4093822299F31D0_082EFA98EC4E6C89),
    cells(0x452821E638D01377_BE5466CF34E90C6C),
    cells(0xC0AC29B7C97C50DD_3F84D5B5B5470917),
    cells(0x9216D5D98979FB1B_D1310BA698DFB5AC),
    cells(0x2FFD72DBD01ADFB7_B8E1AFED6A267E96),
    cells(0xBA7C9045F12C7F99_24A19947B3916CF7),
    cells(0x0801F2E2858EFC16_636920D871574E69),
    cells(0xA458FEA3F4933D7E_0D95748F728EB658),
    cells(0x718BCD5882154AEE_7B54A41DC25A59B5),
    cells(0x9C30D5392AF26013_C5D1B023286085F0),
];

/// α (Table 2).
const ALPHA: u128 = 0x243F6A8885A308D3_13198A2E03707344;

/// Σ: σ on (x7, x6, x5, x4) gives (x'7, x'5, x'3, x'1), on (x3, x2, x1, x0) it gives (x'6, x'4, x'2, x'0)
/// (3.4).
const fn wire(sigma: &Box4) -> Box8 {
    let mut outputs = [0; 256];
    let mut x = 0;
    while x < 256 {
        outputs[x] = spread(sigma[x >> 4]) << 1 | spread(sigma[x & 15]);
        x += 1;
    }
    outputs
}

/// The inverse of Σ: the opposite wiring; takes the inverse of σ (3.4).
const fn unwire(inverse: &Box4) -> Box8 {
    let mut outputs = [0; 256];
    let mut x = 0;
    while x < 256 {
        outputs[x] = inverse[gather(x >> 1)] << 4 | inverse[gather(x)];
        x += 1;
    }
    outputs
}

/// (b3, b2, b1, b0) at the places 6, 4, 2 and 0.
const fn spread(bits: u8) -> u8 {
    (bits & 8) << 3 | (bits & 4) << 2 | (bits & 2) << 1 | bits & 1
}

/// The bits at the places 6, 4, 2 and 0.
const fn gather(cell: usize) -> usize {
    cell >> 3 & 8 | cell >> 2 & 4 | cell >> 1 & 2 | cell & 1
}

const fn cells(word: u128) -> Cells {
    word.to_be_bytes()
}

fn word(cells: Cells) -> u128 {
    u128::from_be_bytes(cells)
}

/// Each column multiplied by circ(0, ρ, ρ⁴, ρ⁵), which undoes itself; ρ rotates a cell left by 1 (3.1).
fn mix(cells: Cells) -> Cells {
    let mut mixed = [0; 16];
    for column in 0..4 {
        let cell = |row: usize| cells[4 * (row % 4) + column];
        for row in 0..4 {
            mixed[4 * row + column] = cell(row + 1).rotate_left(1)
                ^ cell(row + 2).rotate_left(4)
                ^ cell(row + 3).rotate_left(5);
        }
    }
    mixed
}

fn substitute(cells: Cells, sigma: &Box8) -> Cells {
    cells.map(|cell| sigma[usize::from(cell)])
}

/// ω: (b7, b6, .., b0) becomes (b0 + b2, b7, b6, .., b1) (2.4).
fn omega(cell: u8) -> u8 {
    let (b0, b2) = (cell & 1, cell >> 2 & 1);
    (b0 ^ b2) << 7 | cell >> 1
}

/// The inverse of ω: (b7, b6, .., b0) becomes (b6, .., b0, b7 + b1).
fn omega_inverse(cell: u8) -> u8 {
    let (b1, b7) = (cell >> 1 & 1, cell >> 7);
    cell << 1 | (b7 ^ b1)
}

/// T becomes ω(h(T)) (2.4).
fn step(tweak: Cells) -> Cells {
    let mut tweak = shuffle(tweak, &TWEAK_SHUFFLE);
    for i in OMEGA_CELLS {
        tweak[i] = omega(tweak[i]);
    }
    tweak
}

/// The inverse of `step` (2.5).
fn step_back(mut tweak: Cells) -> Cells {
    for i in OMEGA_CELLS {
        tweak[i] = omega_inverse(tweak[i]);
    }
    unshuffle(tweak, &TWEAK_SHUFFLE)
}

/// R (2.3).
fn forward(state: Cells, tweakey: Cells, sigma: &Box8) -> Cells {
    let state = shuffle(add(state, tweakey), &SHUFFLE);
    substitute(mix(state), sigma)
}

/// R without ShuffleCells and MixColumns (2.3).
fn short_forward(state: Cells, tweakey: Cells, sigma: &Box8) -> Cells {
    substitute(add(state, tweakey), sigma)
}

/// The inverse of R; takes the inverse box (2.5).
fn backward(state: Cells, tweakey: Cells, inverse: &Box8) -> Cells {
    let state = mix(substitute(state, inverse));
    add(unshuffle(state, &SHUFFLE), tweakey)
}

/// The inverse of the short R; takes the inverse box (2.5).
fn short_backward(state: Cells, tweakey: Cells, inverse: &Box8) -> Cells {
    add(substitute(state, inverse), tweakey)
}

/// The pseudo-reflector P (2.6).
fn reflect(state: Cells, k1: Cells) -> Cells {
    let state = mix(shuffle(state, &SHUFFLE));
    unshuffle(add(state, k1), &SHUFFLE)
}

/// Lines 3 to 13 of Figure 3 on four free words. Box 0 to 2, rounds 0 to 11.
pub fn engine(
    box_number: usize,
    rounds: usize,
    schedule: Schedule,
    tweak: u128,
    block: u128,
) -> u128 {
    let sigma = &BOXES[box_number];
    let inverse = &INVERSE_BOXES[box_number];
    let w0 = cells(schedule.w0);
    let w1 = cells(schedule.w1);
    let k0 = cells(schedule.k0);
    let k0_alpha = cells(schedule.k0 ^ ALPHA);
    let k1 = cells(schedule.k1);
    let mut tweak = cells(tweak);

    let mut state = add(cells(block), w0);
    for (i, &constant) in CONSTANTS[..rounds].iter().enumerate() {
        let tweakey = add(add(k0, tweak), constant);
        state = if i == 0 {
            short_forward(state, tweakey, sigma)
        } else {
            forward(state, tweakey, sigma)
        };
        tweak = step(tweak);
    }
    state = forward(state, add(w1, tweak), sigma);
    state = reflect(state, k1);
    state = backward(state, add(w0, tweak), inverse);
    for (i, &constant) in CONSTANTS[..rounds].iter().enumerate().rev() {
        tweak = step_back(tweak);
        let tweakey = add(add(k0_alpha, tweak), constant);
        state = if i == 0 {
            short_backward(state, tweakey, inverse)
        } else {
            backward(state, tweakey, inverse)
        };
    }
    word(add(state, w1))
}

/// o(w0): w0 rotated right by 1, plus w0 shifted right by 127 (2.2).
fn outer(w0: u128) -> u128 {
    w0.rotate_right(1) ^ (w0 >> 127)
}

/// Line 2 of Figure 3, case ENC.
pub fn schedule(key: Key) -> Schedule {
    Schedule {
        w0: key.w0,
        w1: outer(key.w0),
        k0: key.k0,
        k1: key.k0,
    }
}

/// Line 2 of Figure 3, case DEC.
fn deciphering_schedule(key: Key) -> Schedule {
    Schedule {
        w0: outer(key.w0),
        w1: key.w0,
        k0: key.k0 ^ ALPHA,
        k1: word(mix(cells(key.k0))),
    }
}

/// The schedule under which the engine undoes what it did under this one (2.2, 2.6).
pub fn turn(schedule: Schedule) -> Schedule {
    Schedule {
        w0: schedule.w1,
        w1: schedule.w0,
        k0: schedule.k0 ^ ALPHA,
        k1: word(mix(cells(schedule.k1))),
    }
}

/// Figure 3, case ENC.
pub fn encipher(box_number: usize, rounds: usize, key: Key, tweak: u128, block: u128) -> u128 {
    engine(box_number, rounds, schedule(key), tweak, block)
}

/// Figure 3, case DEC.
pub fn decipher(box_number: usize, rounds: usize, key: Key, tweak: u128, block: u128) -> u128 {
    engine(box_number, rounds, deciphering_schedule(key), tweak, block)
}

#[cfg(test)]
mod tests {
    use super::*;
    use crate::rng::Rng;
    use std::array;

    /// Each of the 128 bits by itself.
    fn bits() -> impl Iterator<Item = u128> {
        (0..128).map(|i| 1 << i)
    }

    #[test]
    fn every_inverse_undoes() {
        for (sigma, inverse) in BOXES.iter().zip(&INVERSE_BOXES) {
            for x in 0..=255 {
                let once = |cell: u8, table: &Box8| substitute([cell; 16], table)[0];
                assert_eq!(once(once(x, sigma), inverse), x);
                assert_eq!(once(once(x, inverse), sigma), x);
            }
        }
        for bit in bits() {
            let bit = cells(bit);
            assert_eq!(mix(mix(bit)), bit);
            assert_eq!(step_back(step(bit)), bit);
            assert_eq!(step(step_back(bit)), bit);
            for from in [&SHUFFLE, &TWEAK_SHUFFLE] {
                assert_eq!(unshuffle(shuffle(bit, from), from), bit);
            }
        }
    }

    /// The wiring of Figure 6, which our copy has lost, by the sentence beside it, bit by bit: where
    /// each output bit of each σ goes, x7 and x'7 being the highest (3.4).
    #[test]
    fn boxes_of_figure_6() {
        let bit = |x: u8, place: usize| x >> place & 1;
        for (number, sigma) in BOXES.iter().enumerate() {
            for x in 0..=255 {
                let sigma4 = |high: usize| {
                    let input = (0..4).fold(0, |sum, i| 2 * sum + bit(x, high - i));
                    qarma::BOXES[number][usize::from(input)]
                };
                let mut output = [0; 8];
                for (i, place) in [7, 5, 3, 1].into_iter().enumerate() {
                    output[place] = bit(sigma4(7), 3 - i);
                }
                for (i, place) in [6, 4, 2, 0].into_iter().enumerate() {
                    output[place] = bit(sigma4(3), 3 - i);
                }
                let wired = output.iter().rev().fold(0, |sum, bit| 2 * sum + bit);
                assert_eq!(sigma[usize::from(x)], wired, "box {number}, input {x}");
            }
        }
    }

    /// The matrix as it is written out in appendix C, without the 1 of M + I: a power of ρ for each row
    /// and column, none on the diagonal.
    #[test]
    fn matrix_of_appendix_c() {
        const MATRIX: [[Option<u32>; 4]; 4] = [
            [None, Some(1), Some(4), Some(5)],
            [Some(5), None, Some(1), Some(4)],
            [Some(4), Some(5), None, Some(1)],
            [Some(1), Some(4), Some(5), None],
        ];
        for place in 0..16 {
            for bit in 0..8 {
                let mut state = [0; 16];
                state[place] = 1 << bit;
                let meant = array::from_fn(|i| {
                    let power = MATRIX[i / 4][place / 4].filter(|_| i % 4 == place % 4);
                    power.map_or(0, |power| 1 << ((bit + power) % 8))
                });
                assert_eq!(mix(state), meant, "bit {bit} of cell {place}");
            }
        }
    }

    /// How many of these words are independent.
    fn dimension(words: impl IntoIterator<Item = u128>) -> usize {
        let mut space = Space::default();
        words.into_iter().filter(|&word| space.add(word)).count()
    }

    /// What some words span: for each highest bit at most one word.
    #[derive(Default)]
    struct Space(Vec<u128>);

    impl Space {
        /// Adds a word, and says whether it was outside.
        fn add(&mut self, mut word: u128) -> bool {
            for &other in &self.0 {
                word = word.min(word ^ other);
            }
            if word != 0 {
                self.0.push(word);
                self.0.sort_unstable_by(|a, b| b.cmp(a));
            }
            word != 0
        }
    }

    /// M has 2^72 fixed points (3.1.2, appendix C).
    #[test]
    fn fixed_points() {
        let moved = bits().map(|bit| bit ^ word(mix(cells(bit))));
        assert_eq!(128 - dimension(moved), 72);
    }

    /// w0 becomes w1, and w0 + w1, one to one (3.2).
    #[test]
    fn outer_is_an_orthomorphism() {
        let orthomorphism = |o: fn(u128) -> u128| {
            let sums = bits().map(|bit| bit ^ o(bit));
            dimension(bits().map(o)) == 128 && dimension(sums) == 128
        };
        assert!(orthomorphism(outer));
        assert!(!orthomorphism(|w0| (w0 >> 1) ^ (w0 >> 127)));
        assert!(!orthomorphism(|w0| (w0 >> 1) ^ w0.rotate_right(127)));
        assert!(!orthomorphism(
            |w0| w0.rotate_right(1) ^ w0.rotate_right(127)
        ));
    }

    /// What the program `vectors` and the C caller expect: no vectors of the paper, but this program's.
    #[test]
    fn expected_elsewhere() {
        let [p, t, w, k] = [
            0xFB623599DA6E8127,
            0x477D469DEC0B8762,
            0x84BE85CE9804E94B,
            0xEC2802D4E0A488E9,
        ];
        let two = |high: u128, low: u128| high << 64 | low;
        let key = Key {
            w0: two(w, k),
            k0: two(k, w),
        };
        for (number, rounds, ciphertext) in [
            (1, 3, 0xFF6744A9CE0C997830311D6F68F50942),
            (1, 4, 0x880BC287C559E80A67D06347263384E2),
            (1, 5, 0x1FCC86B7F1F3EE792CDC427D22890409),
            (1, 6, 0xCEE0203675A036389E2794C4D964538D),
            (1, 7, 0x22D7F3619E4D45FFEC295559382D15EC),
            (1, 8, 0x31AFC3F7EDC0DEFB2824EBE64E1F697B),
            (1, 9, 0x92562E5437426705BD380BFF9964A827),
            (1, 10, 0xA55A77D10D59F0D2ABC3763DFB66D8C5),
            (1, 11, 0xAC52BE9C630001164E977E9173C82C1B),
            (0, 11, 0xE9732F0261489CCC12925F636791C1CB),
            (2, 11, 0x7D180D1E1AB038659AA211D5BE9668A5),
        ] {
            assert_eq!(
                encipher(number, rounds, key, two(t, p), two(p, t)),
                ciphertext
            );
        }
    }

    /// All cycles of ω on cells that are not zero have length 15 or 30 (2.4).
    #[test]
    fn cycles_of_omega() {
        for start in 1..=255 {
            let mut cell = omega(start);
            let mut length = 1;
            while cell != start {
                cell = omega(cell);
                length += 1;
            }
            assert!(length == 15 || length == 30, "{length} from {start}");
        }
        assert_eq!(omega(0b0000_0001), 0b1000_0000);
        assert_eq!(omega(0b0000_0100), 0b1000_0010);
        assert_eq!(omega(0b0000_0101), 0b0000_0010);
        assert_eq!(omega(0b1000_0000), 0b0100_0000);
    }

    /// The space of section 4.3 that every invariant subspace contains has dimension 127 for tweak 0 and
    /// r = 11: α and ci + c1, and what τ and M make of these.
    #[test]
    fn invariant_space() {
        let sums = CONSTANTS[1..].iter().map(|&c| word(add(c, CONSTANTS[1])));
        let mut open: Vec<u128> = sums.chain([ALPHA]).collect();
        let mut space = Space::default();
        while let Some(next) = open.pop() {
            if space.add(next) {
                open.extend([mix(cells(next)), shuffle(cells(next), &SHUFFLE)].map(word));
            }
        }
        assert_eq!(space.0.len(), 127);
    }

    /// The fractional part of π: so many words of 32 bits, by π = 16 arctan(1/5) - 4 arctan(1/239).
    fn pi(words: usize) -> Vec<u32> {
        let mut pi = arctan(16, 5, words + 2);
        subtract(&mut pi, &arctan(4, 239, words + 2));
        assert_eq!(pi.remove(0), 3);
        pi.truncate(words);
        pi
    }

    /// `times` arctan(1/x): a whole word, and then so many of the fractional part. Each term, too, is cut
    /// there; what that leaves out stays within the last word.
    fn arctan(times: u32, x: u32, words: usize) -> Vec<u32> {
        let mut power = vec![0; 1 + words];
        power[0] = times;
        divide(&mut power, x);
        let mut sum = power.clone();
        for odd in (3..).step_by(2) {
            divide(&mut power, x * x);
            let mut term = power.clone();
            divide(&mut term, odd);
            match odd % 4 {
                3 => subtract(&mut sum, &term),
                _ => sum_up(&mut sum, &term),
            }
            if power.iter().all(|&word| word == 0) {
                break;
            }
        }
        sum
    }

    fn divide(number: &mut [u32], by: u32) {
        let mut rest = 0;
        for word in number {
            let dividend = rest << 32 | u64::from(*word);
            *word = (dividend / u64::from(by)) as u32;
            rest = dividend % u64::from(by);
        }
    }

    fn sum_up(number: &mut [u32], more: &[u32]) {
        let mut carry = 0;
        for (word, &more) in number.iter_mut().zip(more).rev() {
            let sum = u64::from(*word) + u64::from(more) + carry;
            *word = sum as u32;
            carry = sum >> 32;
        }
    }

    fn subtract(number: &mut [u32], less: &[u32]) {
        let mut borrow = false;
        for (word, &less) in number.iter_mut().zip(less).rev() {
            let (difference, below) = word.overflowing_sub(less);
            let (difference, below_too) = difference.overflowing_sub(borrow.into());
            *word = difference;
            borrow = below || below_too;
        }
    }

    /// Section 2.7. Of QARMA-128, α is the first block of 128 bits of the fractional part of π, c0 is 0,
    /// and c1 to c10 are the blocks that follow. Of QARMA-64, the first block of 64 bits is replaced by
    /// zeros, which are c0, the seventh is α, and the others are c1 to c7 in their order.
    #[test]
    fn constants_are_digits_of_pi() {
        let pi: Vec<u8> = pi(44).into_iter().flat_map(u32::to_be_bytes).collect();
        assert_eq!(pi[..8], 0x243F6A88_85A308D3_u64.to_be_bytes());

        let mut blocks: Vec<&[u8]> = pi.chunks(16).collect();
        assert_eq!(blocks[0], cells(ALPHA));
        blocks[0] = &[0; 16];
        assert_eq!(blocks, CONSTANTS);

        let block = |bytes: &[u8]| u64::from_be_bytes(bytes.try_into().expect("8 bytes"));
        let mut blocks: Vec<Cells> = pi.chunks(8).map(|b| qarma::cells(block(b))).collect();
        assert_eq!(blocks.remove(6), qarma::cells(qarma::ALPHA));
        blocks[0] = [0; 16];
        assert_eq!(blocks[..8], qarma::CONSTANTS);
    }

    /// From the tweak's step on, all is written as for QARMA-64, which the vectors of appendix A.1 try.
    /// (The two do not share it: as one function over both, QARMA-64's engine took a third longer.)
    #[test]
    fn rounds_of_qarma_64() {
        let rounds = |file: &str| {
            let (from, to) = ("/// T becomes", "deciphering_schedule(key), tweak, block)");
            let from = file.find(from).expect("the step");
            let to = file.find(to).expect("the last function");
            let text: String = file[from..to].split_whitespace().collect();
            text.replace(",)", ")")
        };
        let mut text = rounds(include_str!("qarma128.rs"));
        for (wide, narrow) in [
            ("u128", "u64"),
            ("Box8", "Box4"),
            (">>127", ">>63"),
            ("by127", "by63"),
            ("rounds0to11", "rounds0to8"),
        ] {
            text = text.replace(wide, narrow);
        }
        assert_eq!(text, rounds(include_str!("qarma.rs")));
    }

    /// Turning, and deciphering by Figure 3, against the engine, on random words.
    #[test]
    fn turned_schedules_undo() {
        let mut rng = Rng::new(128);
        for box_number in 0..3 {
            for rounds in 0..=11 {
                for _ in 0..20 {
                    let [w0, w1, k0, k1, tweak, block] =
                        array::from_fn(|_| u128::from(rng.word()) << 64 | u128::from(rng.word()));
                    let engine =
                        |schedule, block| engine(box_number, rounds, schedule, tweak, block);
                    let free = Schedule { w0, w1, k0, k1 };
                    assert_eq!(turn(turn(free)), free);
                    assert_eq!(engine(turn(free), engine(free, block)), block);
                    assert_eq!(engine(free, engine(turn(free), block)), block);

                    let key = Key { w0, k0 };
                    let enciphered = encipher(box_number, rounds, key, tweak, block);
                    let deciphered = decipher(box_number, rounds, key, tweak, block);
                    assert_eq!(enciphered, engine(schedule(key), block));
                    assert_eq!(deciphered, engine(turn(schedule(key)), block));
                    let undone = decipher(box_number, rounds, key, tweak, enciphered);
                    assert_eq!(undone, block);
                    let undone = encipher(box_number, rounds, key, tweak, deciphered);
                    assert_eq!(undone, block);
                }
            }
        }
    }
}
