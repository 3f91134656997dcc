//! Random numbers, many of them about the limits of document 01.

use second::calls::blocks::Word;
use second::frame::{LABEL_MAX, MESSAGE_MAX, SERIAL_MAX};
use second::rng::Rng;
use std::mem::size_of;
use std::ops::RangeInclusive;

/// One chance in so many.
pub fn one_in(rng: &mut Rng, chances: usize) -> bool {
    rng.below(chances) == 0
}

/// A word of a key, a schedule, a tweak or a block: zeros, ones, one bit among them, or any.
pub fn word<W: Word>(rng: &mut Rng) -> W {
    let bit = W::from(1) << rng.below(8 * size_of::<W>());
    match rng.below(8) {
        0 => W::from(0),
        1 => !W::from(0),
        2 => bit,
        3 => !bit,
        _ => W::of(|| rng.word()),
    }
}

/// A number about this limit or the greatest of all, one that comes there when cut to fewer bits, or
/// any.
pub fn about(rng: &mut Rng, limit: u64) -> u64 {
    let near = limit.wrapping_sub(2).wrapping_add(rng.below(5) as u64);
    match rng.below(8) {
        0..=3 => near,
        4 | 5 => near.wrapping_add(1 << rng.below(64)),
        6 => u64::MAX - rng.below(16) as u64,
        _ => rng.word() >> rng.below(64),
    }
}

/// Another number instead of this one: a bit of it changed, a few more or fewer, or one about the limit.
pub fn another(rng: &mut Rng, number: u64, limit: u64) -> u64 {
    match rng.below(4) {
        0 => number ^ 1 << rng.below(64),
        1 => number.wrapping_add(1 + rng.below(9) as u64),
        2 => number.wrapping_sub(1 + rng.below(9) as u64),
        _ => about(rng, limit),
    }
}

pub fn box_number(rng: &mut Rng) -> u64 {
    if one_in(rng, 6) {
        about(rng, 2)
    } else {
        rng.below(3) as u64
    }
}

/// Rounds about the limits of this size, or within it.
pub fn rounds(rng: &mut Rng, size: RangeInclusive<u64>) -> u64 {
    let (least, most) = size.into_inner();
    if one_in(rng, 6) {
        let limit = rng.one_of(&[least, most]);
        about(rng, limit)
    } else {
        least + rng.below((most - least + 1) as usize) as u64
    }
}

pub fn serial(rng: &mut Rng) -> u64 {
    if one_in(rng, 6) {
        about(rng, SERIAL_MAX)
    } else {
        good_serial(rng)
    }
}

pub fn good_serial(rng: &mut Rng) -> u64 {
    match rng.below(8) {
        0 => rng.below(2) as u64,
        1 => SERIAL_MAX - rng.below(2) as u64,
        _ => rng.word() & SERIAL_MAX,
    }
}

pub fn message_length(rng: &mut Rng) -> usize {
    if one_in(rng, 16) {
        too_long(rng, MESSAGE_MAX)
    } else {
        good_message_length(rng)
    }
}

/// A block costs a run of the engine, so few messages are long.
pub fn good_message_length(rng: &mut Rng) -> usize {
    match rng.below(256) {
        0 => MESSAGE_MAX as usize - rng.below(9),
        1 => rng.below(MESSAGE_MAX as usize),
        2..=63 => 8 * rng.below(6),
        _ => rng.below(41),
    }
}

pub fn label_length(rng: &mut Rng) -> usize {
    if one_in(rng, 16) {
        too_long(rng, LABEL_MAX)
    } else {
        good_label_length(rng)
    }
}

pub fn good_label_length(rng: &mut Rng) -> usize {
    match rng.below(16) {
        0 => LABEL_MAX as usize - rng.below(2),
        1..=7 => 0,
        _ => rng.below(18),
    }
}

/// Random bytes, as many as a length says.
pub fn bytes(rng: &mut Rng, length: fn(&mut Rng) -> usize) -> Vec<u8> {
    let length = length(rng);
    rng.bytes(length)
}

/// A length above this one. A few are those that come inside when cut to 8 or 16 bits.
fn too_long(rng: &mut Rng, longest: u64) -> usize {
    let more = match rng.below(64) {
        0 => 1 << 16,
        1..=3 => 1 << 8,
        _ => longest as usize + 1,
    };
    more.max(longest as usize + 1) + rng.below(9)
}

/// Room for an answer of so many bytes, or for fewer, or for more.
pub fn room(rng: &mut Rng, need: usize) -> usize {
    match rng.below(16) {
        0 => 0,
        1 => need.saturating_sub(1),
        2 | 3 => rng.below(need + 1),
        4..=7 => need + 1 + rng.below(40),
        _ => need,
    }
}
