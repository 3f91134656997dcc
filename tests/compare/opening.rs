//! `kk_open`. What is opened was sealed by the second program.

use crate::frames::{
    self, Memory, BAD_LABELS, BAD_MESSAGES, LONG, LONGEST_LABEL, LONGEST_MESSAGE, SHORT,
};
use second::calls::frames::{refused, OpenCall, SealCall};
use second::frame::{self, Refusal, SERIAL_MAX};
use second::harness::{self, Outcome, Part, Tally};
use second::qarma::{vectors::KEY, Key};
use second::rng::Rng;

/// Lent memory for more than any message.
const AMPLE: usize = LONGEST_MESSAGE + 76;

/// The frame opens to its message.
fn opens(tally: &mut Tally, call: &SealCall, room: usize) {
    let message = Outcome::wrote(call.message.to_vec());
    tally.expect(&call.opening(&call.sealed()), room, &message);
}

/// Tag or fill disagrees, and that alone.
fn disagrees(tally: &mut Tally, call: &OpenCall) {
    let room = call.message_length as usize + 9;
    tally.expect(call, room, &refused(Refusal::Tag));
}

/// The bytes with one bit of them changed.
fn changed(bytes: &[u8], bit: usize) -> Part {
    let mut bytes = bytes.to_vec();
    bytes[bit / 8] ^= 1 << (bit % 8);
    Part::new(&bytes)
}

/// The examples of document 01 that opening can show, and their returned numbers.
fn examples(tally: &mut Tally) {
    let mut memory = Memory::new(20);
    for (message, serial, room, answer) in [
        (1_024, 0, 1_024, 1_024),
        (1_025, 0, 2_000, 2 << 56),
        (1_025, 1 << 44, 2_000, 2 << 56),
        (0, 0, 0, 0),
        (1, 0, 1, 1),
        (1, 0, 0, 5 << 56),
        (1_024, 0, 1_023, 5 << 56),
    ] {
        let call = memory.call(serial, 0, message);
        let (found, _) = harness::answer(&call.opening(&call.sealed()), room);
        let inputs = (message, serial, room);
        tally.same("examples of opening", &inputs, found, answer);
    }
}

/// Every room up to one more than is needed, for short messages and for some long ones.
fn rooms(tally: &mut Tally) {
    let mut memory = Memory::new(21);
    for message in (0..=SHORT).chain(LONG) {
        for label in [0, 5, 8, LONGEST_LABEL] {
            let call = memory.random(label, message);
            let sealed = call.sealed();
            for room in 0..message {
                tally.expect(&call.opening(&sealed), room, &refused(Refusal::Room));
            }
            opens(tally, &call, message);
            opens(tally, &call, message + 1);
        }
    }

    for message in SHORT..=LONGEST_MESSAGE {
        let call = memory.random(message % (LONGEST_LABEL + 1), message);
        let sealed = call.sealed();
        for room in [0, message - 8, message / 8 * 8 - 1, message - 1] {
            tally.expect(&call.opening(&sealed), room, &refused(Refusal::Room));
        }
    }
}

/// Every bit of the sealed bytes, the label, the key and the serial of short frames.
fn changed_bits(tally: &mut Tally) {
    let mut memory = Memory::new(22);
    for message in 0..=SHORT {
        for label in [0, 8, 13, LONGEST_LABEL] {
            let call = memory.random(label, message);
            let sealed = call.sealed();
            let right = call.opening(&sealed);
            for bit in 0..8 * sealed.len() {
                let sealed = &changed(&sealed, bit);
                disagrees(tally, &OpenCall { sealed, ..right });
            }
            for bit in 0..8 * label {
                let label = &changed(call.label, bit);
                disagrees(tally, &OpenCall { label, ..right });
            }
            let Key { w0, k0 } = call.key;
            for bit in (0..64).map(|bit| 1 << bit) {
                for (w0, k0) in [(w0 ^ bit, k0), (w0, k0 ^ bit)] {
                    let key = Key { w0, k0 };
                    disagrees(tally, &OpenCall { key, ..right });
                }
            }
            for bit in 0..44 {
                let serial = call.serial ^ 1 << bit;
                disagrees(tally, &OpenCall { serial, ..right });
            }
        }
    }
}

/// Labels that are not this one but begin or end like it, or have its words: cut, longer, and with
/// the fill written out.
fn like_label(label: &[u8]) -> Vec<Vec<u8>> {
    let with = |more: &[u8]| [label, more].concat();
    let fill = [0x80, 0, 0, 0, 0, 0, 0, 0];
    vec![
        Vec::new(),
        label[1..].to_vec(),
        label[..label.len() - 1].to_vec(),
        with(&[0x00]),
        with(&fill[..1]),
        with(&fill[..8 - label.len() % 8]),
    ]
}

/// Every message length: some bits of the sealed bytes, and other keys, serials and labels.
fn others(tally: &mut Tally) {
    let mut memory = Memory::new(23);
    for message in 0..=LONGEST_MESSAGE {
        let call = memory.random(1 + message % (LONGEST_LABEL - 8), message);
        let sealed = call.sealed();
        let right = call.opening(&sealed);
        let bits = 8 * sealed.len();
        for bit in (message % 8..bits).step_by(bits / 8 + 1) {
            let sealed = &changed(&sealed, bit);
            disagrees(tally, &OpenCall { sealed, ..right });
        }
        let Key { w0, k0 } = call.key;
        for (w0, k0) in [(k0, w0), (!w0, k0), (w0, 0)] {
            let key = Key { w0, k0 };
            disagrees(tally, &OpenCall { key, ..right });
        }
        for serial in [call.serial ^ 1, SERIAL_MAX - call.serial] {
            disagrees(tally, &OpenCall { serial, ..right });
        }
        for label in like_label(call.label) {
            let label = &Part::new(&label);
            disagrees(tally, &OpenCall { label, ..right });
        }
    }
}

/// Sealed bytes put together from the blocks and tags of right ones, and random bytes.
fn parts(tally: &mut Tally) {
    let mut memory = Memory::new(24);
    let random = memory.rng.bytes(100);
    for message in 0..=40 {
        let call = memory.random(message % (LONGEST_LABEL + 1), message);
        let sealed = call.sealed();
        let serial = call.serial ^ 1;
        let other = SealCall { serial, ..call }.sealed();
        let right = call.opening(&sealed);
        let mut wrong = |bytes: &[u8]| {
            let sealed = &Part::new(bytes);
            disagrees(tally, &OpenCall { sealed, ..right });
        };

        wrong(&random[..call.need()]);
        wrong(&other);
        for i in (0..call.need()).step_by(8) {
            let mut one_other = sealed.to_vec();
            one_other[i..i + 8].copy_from_slice(&other[i..i + 8]);
            wrong(&one_other);
            for j in (0..i).step_by(8) {
                let mut exchanged = sealed.to_vec();
                exchanged[i..i + 8].copy_from_slice(&sealed[j..j + 8]);
                exchanged[j..j + 8].copy_from_slice(&sealed[i..i + 8]);
                wrong(&exchanged);
            }
        }

        // A block less, and the length that goes with it.
        for i in (0..message / 8 * 8).step_by(8) {
            let less = Part::new(&[&sealed[..i], &sealed[i + 8..]].concat());
            disagrees(tally, &call.opening(&less).at(message - 8));
        }
    }
}

/// Why sealed bytes for a message of this length do not open at another length.
fn at_other_length(message: usize, length: usize) -> Refusal {
    if length > LONGEST_MESSAGE {
        Refusal::Length
    } else if frame::sealed_length(length) != frame::sealed_length(message) {
        Refusal::Sealed
    } else {
        Refusal::Tag
    }
}

/// These frames open at no other length: short ones at all, the rest at those near their own.
fn other_lengths(tally: &mut Tally) {
    let mut memory = Memory::new(25);
    for message in 0..=LONGEST_MESSAGE {
        let call = memory.random(message % (LONGEST_LABEL + 1), message);
        let sealed = call.sealed();
        let lengths = if message <= 40 {
            0..=AMPLE
        } else {
            message - 9..=message + 9
        };
        for length in lengths.filter(|length| *length != message) {
            let meant = refused(at_other_length(message, length));
            tally.expect(&call.opening(&sealed).at(length), AMPLE, &meant);
        }
    }
}

/// A sealed text that opens at two lengths, as the rules of document 01 allow: the tags of the whole
/// and of the filled message agree by chance.
fn two_lengths(tally: &mut Tally) {
    let bytes = |hex: u128, count: usize| hex.to_be_bytes()[16 - count..].to_vec();
    let whole = bytes(0xA54729AA32646895C497EFE738867FB1, 16);
    let short = bytes(0xA54729AA326468950000024299B5A8, 15);
    for message in [whole, short] {
        let call = SealCall {
            key: KEY,
            serial: 1,
            label: &[],
            message: &message,
        };
        let sealed = [
            bytes(0x07C083A47B326C6D9BF88EB2BDB10960, 16),
            bytes(0x000000003B271E6A, 8),
        ];
        tally.expect(&call, 24, &Outcome::wrote(sealed.concat()));
        opens(tally, &call, message.len());
    }
}

/// Messages that end like a filled block open at no other length.
fn like_filled(tally: &mut Tally) {
    let mut memory = Memory::new(26);
    for message in 1..=SHORT {
        let last_block = (message - 1) / 8 * 8;
        for mark in last_block..message {
            let call = memory.random(7, message);
            let mut bytes = call.message.to_vec();
            bytes[mark] = 0x80;
            bytes[mark + 1..].fill(0);
            let message = &bytes;
            let call = SealCall { message, ..call };
            opens(tally, &call, message.len());
            let sealed = call.sealed();
            let lengths = last_block + 1..=last_block + 8;
            for length in lengths.filter(|length| *length != message.len()) {
                disagrees(tally, &call.opening(&sealed).at(length));
            }
        }
    }
}

/// Wrong fills of so many bits, each as the low bits of a block: every other mark byte, alone and with
/// ones behind it, every bit by itself, and the right fill with every bit of it changed.
fn wrong_fills(bits: u32) -> impl Iterator<Item = u64> {
    let right = 1 << (bits - 1);
    let behind = (1 << (bits - 8)) - 1;
    let marks = (0..=255).map(move |mark| mark << (bits - 8));
    let single = (0..bits).flat_map(move |bit| [1 << bit, right ^ 1 << bit]);
    marks
        .flat_map(move |mark| [mark, mark | behind])
        .chain(single)
        .filter(move |fill| *fill != right)
}

/// A wrong fill under the tag that belongs to it is refused; the right one so sealed opens.
fn fills(tally: &mut Tally) {
    let mut memory = Memory::new(27);
    for (before, step) in [(0, 1), (1, 1), (2, 3), (127, 29)] {
        for part in 1..8 {
            let message = 8 * before + part;
            let call = memory.random(message % (LONGEST_LABEL + 1), message);
            let bits = 64 - 8 * part as u32;
            let blocks: Vec<u64> = frame::blocks(call.message).collect();
            let filled_with = |fill| {
                let last = blocks[before] >> bits << bits | fill;
                let blocks = blocks[..before].iter().copied().chain([last]);
                call.sealed_blocks(message, blocks)
            };
            for fill in wrong_fills(bits).step_by(step) {
                disagrees(tally, &call.opening(&filled_with(fill)));
            }
            let right = filled_with(1 << (bits - 1));
            let meant = Outcome::wrote(call.message.to_vec());
            tally.expect(&call.opening(&right), message, &meant);
        }
    }
}

/// A last block of any kind, sealed as a filled one or as a whole one, opens at the one length that it
/// shows, or at none.
fn last_blocks(tally: &mut Tally) {
    let mut memory = Memory::new(28);
    for bit in 0..64 {
        let random = memory.rng.word();
        let call = memory.random(9, 0);
        for last in [1 << bit, !0 << bit, random << bit | 1 << bit] {
            for filled in [true, false] {
                let sealed = call.sealed_blocks(if filled { 1 } else { 8 }, [last].into_iter());
                for length in 1..=8 {
                    let fill_right = length < 8 && last << (8 * length) == 1 << 63;
                    let meant = if filled && fill_right || !filled && length == 8 {
                        Outcome::wrote(last.to_be_bytes()[..length].to_vec())
                    } else {
                        refused(Refusal::Tag)
                    };
                    tally.expect(&call.opening(&sealed).at(length), length + 1, &meant);
                }
            }
        }
    }
}

/// Message lengths above the greatest: near it, those that come inside the sizes or to the right
/// length when cut to fewer bits, and those that pass 2^64 when rounded up.
fn bad_lengths(message: usize) -> impl Iterator<Item = u64> {
    let near = LONGEST_MESSAGE as u64 + 1..=LONGEST_MESSAGE as u64 + 16;
    let cut = (11..64).map(move |bit| (1 << bit) + message as u64);
    let last = u64::MAX - 16..=u64::MAX;
    near.chain(cut).chain(last)
}

/// A message length too great, whatever the rest.
fn stated_too_long(tally: &mut Tally) {
    let mut memory = Memory::new(29);
    for message in [0, 1, 8, 15, 16, 1_017, LONGEST_MESSAGE] {
        let call = memory.random(11, message);
        let sealed = call.sealed();
        for message_length in bad_lengths(message) {
            for serial in [call.serial, SERIAL_MAX + 1, u64::MAX] {
                for sealed in [&sealed[..], &sealed[1..], &[]] {
                    let call = OpenCall {
                        serial,
                        message_length,
                        ..call.opening(sealed)
                    };
                    for room in [0, message, AMPLE] {
                        tally.expect(&call, room, &refused(Refusal::Length));
                    }
                }
            }
        }
    }
}

/// A message or a label too long, for frames that are sealed with them, or with the label cut.
fn sealed_too_long(tally: &mut Tally) {
    let mut memory = Memory::new(30);
    let message_bad = BAD_MESSAGES.map(|message| (11, message));
    let label_bad = BAD_LABELS
        .iter()
        .flat_map(|&label| [0, 1, 8, LONGEST_MESSAGE].map(|message| (label, message)));
    for (label, message) in label_bad.chain(message_bad) {
        let call = memory.random(label, message);
        let cut = SealCall {
            label: &call.label[..LONGEST_LABEL.min(label % 256)],
            ..call
        };
        for sealed in [call.sealed(), cut.sealed()] {
            for room in [0, message, message + 1] {
                tally.expect(&call.opening(&sealed), room, &refused(Refusal::Length));
            }
        }
    }
}

/// A serial too great, whatever the rest, for frames that are sealed under it, or under it cut.
fn bad_serials(tally: &mut Tally) {
    let mut memory = Memory::new(31);
    for serial in frames::bad_serials(&mut Rng::new(32)) {
        for (label, message) in [(0, 0), (32, 0), (1, 1), (0, 8), (32, LONGEST_MESSAGE)] {
            let call = memory.call(serial, label, message);
            let serial = serial & SERIAL_MAX;
            for sealed in [call.sealed(), SealCall { serial, ..call }.sealed()] {
                for sealed in [&sealed[..], &sealed[1..], &[]] {
                    for room in [0, message, message + 1] {
                        tally.expect(&call.opening(sealed), room, &refused(Refusal::Serial));
                    }
                }
            }
        }
    }
}

/// Serials that are not too great.
fn good_serials(tally: &mut Tally) {
    let mut memory = Memory::new(33);
    for serial in frames::good_serials() {
        opens(tally, &memory.call(serial, 11, 19), 19);
    }
}

/// Every number of sealed bytes but the right one, whatever the room.
fn sealed_sizes(tally: &mut Tally) {
    let mut memory = Memory::new(34);
    for message in (0..=SHORT).chain(LONG) {
        let more = memory.rng.bytes((1 << 16) + LONGEST_MESSAGE + 8);
        let call = memory.random(message % (LONGEST_LABEL + 1), message);
        let need = call.need();
        let bytes = [&call.sealed(), &more[..]].concat();
        let cut = [1 << 8, 1 << 16].map(|more| need + more);
        let sizes = (0..=need + 40).chain(cut);
        for size in sizes.filter(|size| *size != need) {
            for room in [0, message, message + 1] {
                let call = call.opening(&bytes[..size]);
                tally.expect(&call, room, &refused(Refusal::Sealed));
            }
        }
    }
}

/// What can be wrong with the opening of a frame. Two masks are added to the first sealed byte and to
/// the last byte of the tag.
#[derive(Clone, Copy)]
struct Attempt {
    serial: u64,
    message_length: u64,
    label: usize,
    sealed: usize,
    masks: (u8, u8),
    room: usize,
}

/// For each refusal, in their order, faults that it is given for.
const FAULTS: [(Refusal, &[fn(&mut Attempt)]); 5] = [
    (
        Refusal::Length,
        &[
            |attempt| attempt.message_length = 1_025,
            |attempt| attempt.message_length = u64::MAX,
            |attempt| attempt.label = 33,
        ],
    ),
    (
        Refusal::Serial,
        &[
            |attempt| attempt.serial = 1 << 44,
            |attempt| attempt.serial = u64::MAX,
        ],
    ),
    (
        Refusal::Sealed,
        &[
            |attempt| attempt.sealed = 0,
            |attempt| attempt.sealed -= 1,
            |attempt| attempt.sealed += 1,
        ],
    ),
    (
        Refusal::Room,
        &[|attempt| attempt.room = 0, |attempt| attempt.room -= 1],
    ),
    (
        Refusal::Tag,
        &[
            |attempt| attempt.masks.0 = 0x80,
            |attempt| attempt.masks.1 = 0x01,
        ],
    ),
];

/// The attempt with every choice of faults, at most one for each refusal, and the first refusal that
/// has one.
fn with_faults(right: Attempt) -> Vec<(Attempt, Option<Refusal>)> {
    let mut attempts = vec![(right, None)];
    for (refusal, faults) in FAULTS {
        for (attempt, first) in attempts.clone() {
            attempts.extend(faults.iter().map(|fault| {
                let mut attempt = attempt;
                fault(&mut attempt);
                (attempt, first.or(Some(refusal)))
            }));
        }
    }
    attempts
}

/// Several faults at once: the first in the order of refusals is given.
fn several_faults(tally: &mut Tally) {
    let mut memory = Memory::new(35);
    for message in [1, 8, 13, 1_023, LONGEST_MESSAGE] {
        let longer = memory.random(LONGEST_LABEL + 1, message);
        let label = message % LONGEST_LABEL;
        let call = SealCall {
            label: &longer.label[..label],
            ..longer
        };
        let right = Attempt {
            serial: call.serial,
            message_length: message as u64,
            label,
            sealed: call.need(),
            masks: (0, 0),
            room: message,
        };
        let sealed = call.sealed();
        for (attempt, first) in with_faults(right) {
            let mut bytes = [&sealed, &[0x80][..]].concat();
            bytes[0] ^= attempt.masks.0;
            bytes[call.need() - 1] ^= attempt.masks.1;
            let meant = match first {
                None => Outcome::wrote(call.message.to_vec()),
                Some(refusal) => refused(refusal),
            };
            let call = OpenCall {
                key: call.key,
                serial: attempt.serial,
                message_length: attempt.message_length,
                label: &longer.label[..attempt.label],
                sealed: &bytes[..attempt.sealed],
            };
            tally.expect(&call, attempt.room, &meant);
        }
    }
}

pub fn compare(tally: &mut Tally) {
    examples(tally);
    stated_too_long(tally);
    sealed_too_long(tally);
    bad_serials(tally);
    good_serials(tally);
    sealed_sizes(tally);
    rooms(tally);
    several_faults(tally);
    changed_bits(tally);
    others(tally);
    parts(tally);
    other_lengths(tally);
    two_lengths(tally);
    like_filled(tally);
    fills(tally);
    last_blocks(tally);
    frames::each_of_equal_bytes(36, |call| opens(tally, &call, call.message.len()));
    frames::each_single_bit(|call| opens(tally, &call, call.message.len()));
    frames::each_length(37, |call, spare| {
        opens(tally, &call, call.message.len() + spare)
    });
}
