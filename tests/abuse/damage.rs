//! Damage to bytes that were good.

use second::line::{DIGITS, END};
use second::rng::Rng;
use std::ops::Range;

type Damage = fn(&mut Vec<u8>, &mut Rng);

/// Damages bytes in one of the ways for any bytes.
pub fn damage(bytes: &mut Vec<u8>, rng: &mut Rng) {
    rng.one_of(&DAMAGES)(bytes, rng);
}

/// Damages a line in one of the ways for any bytes or for text.
pub fn damage_line(line: &mut Vec<u8>, rng: &mut Rng) {
    let way = rng.below(DAMAGES.len() + LINE_DAMAGES.len());
    match DAMAGES.get(way) {
        Some(damage) => damage(line, rng),
        None => LINE_DAMAGES[way - DAMAGES.len()](line, rng),
    }
}

/// The place of some byte, or the one behind the last.
fn place(bytes: &[u8], rng: &mut Rng) -> usize {
    rng.below(bytes.len() + 1)
}

/// Some byte, unless there is none at the place.
fn some<'a>(bytes: &'a mut [u8], rng: &mut Rng) -> Option<&'a mut u8> {
    let at = place(bytes, rng);
    bytes.get_mut(at)
}

/// Puts so many copies of a byte before some byte.
fn put(bytes: &mut Vec<u8>, rng: &mut Rng, byte: u8, count: usize) {
    let at = place(bytes, rng);
    bytes.splice(at..at, vec![byte; count]);
}

/// Makes some byte a digit.
fn other_digit(line: &mut [u8], rng: &mut Rng) {
    if let Some(byte) = some(line, rng) {
        *byte = rng.one_of(DIGITS);
    }
}

/// The bytes at these places, as far as there are such.
fn within(line: &mut [u8], places: Range<usize>) -> &mut [u8] {
    let end = line.len();
    &mut line[places.start.min(end)..places.end.min(end)]
}

const DAMAGES: [Damage; 10] = [
    // A bit, or a byte.
    |bytes, rng| {
        if let Some(byte) = some(bytes, rng) {
            *byte ^= 1 << rng.below(8);
        }
    },
    |bytes, rng| {
        if let Some(byte) = some(bytes, rng) {
            *byte = rng.word() as u8;
        }
    },
    // A byte more, and a byte less.
    |bytes, rng| {
        let byte = rng.word() as u8;
        put(bytes, rng, byte, 1);
    },
    |bytes, rng| {
        let at = place(bytes, rng);
        bytes.splice(at..bytes.len().min(at + 1), []);
    },
    // A block less.
    |bytes, rng| {
        let at = place(bytes, rng) / 8 * 8;
        bytes.splice(at..bytes.len().min(at + 8), []);
    },
    // Cut short, at either end.
    |bytes, rng| bytes.truncate(place(bytes, rng)),
    |bytes, rng| {
        bytes.drain(..place(bytes, rng));
    },
    // Bytes behind the last, few or far too many.
    |bytes, rng| {
        let count = match rng.below(40) {
            0 => 1 << 16,
            1 => 1 << 8,
            _ => 1 + rng.below(17),
        };
        bytes.extend(rng.bytes(count));
    },
    // Two parts that follow one another, exchanged. They may be blocks.
    |bytes, rng| {
        let unit = rng.one_of(&[1, 8]);
        let mut places = [(); 3].map(|()| place(bytes, rng) / unit * unit);
        places.sort_unstable();
        let [first, second, end] = places;
        bytes[first..end].rotate_left(second - first);
    },
    // Nothing but the length is left.
    |bytes, rng| *bytes = rng.bytes(bytes.len()),
];

const LINE_DAMAGES: [Damage; 12] = [
    // Another digit: anywhere, in the head, in its lengths, or for the end.
    |line, rng| other_digit(line, rng),
    |line, rng| other_digit(within(line, 0..20), rng),
    |line, rng| other_digit(within(line, 14..20), rng),
    |line, rng| {
        if let Some(byte) = line.last_mut() {
            *byte = rng.one_of(DIGITS);
        }
    },
    // Capitals: one, or all.
    |line, rng| {
        let from = place(line, rng);
        let mut letters = line[from..].iter_mut();
        if let Some(letter) = letters.find(|byte| byte.is_ascii_lowercase()) {
            letter.make_ascii_uppercase();
        }
    },
    |line, _| line.make_ascii_uppercase(),
    // Byte 0D before the end.
    |line, _| line.insert(line.len().saturating_sub(1), b'\r'),
    // A blank or another end somewhere, or two digits.
    |line, rng| {
        let byte = rng.one_of(b" \t\r\n\0");
        put(line, rng, byte, 1);
    },
    |line, rng| {
        let digit = rng.one_of(DIGITS);
        put(line, rng, digit, 2);
    },
    // More digits than a line has.
    |line, rng| put(line, rng, b'0', 5_000),
    // The same line again, and an empty one.
    |line, _| line.extend_from_within(..),
    |line, _| line.push(END),
];
