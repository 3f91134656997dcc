//! `kk_seal`.

use crate::frames::{
    self, Memory, BAD_LABELS, BAD_MESSAGES, LONG, LONGEST_LABEL, LONGEST_MESSAGE, SHORT,
};
use second::calls::frames::refused;
use second::frame::{Refusal, SERIAL_MAX};
use second::harness::{self, Tally};
use second::rng::Rng;

/// The examples of document 01 that sealing can show, and their returned numbers.
fn examples(tally: &mut Tally) {
    let mut memory = Memory::new(10);
    for (message, serial, room, answer) in [
        (1_024, 0, 1_032, 1_032),
        (1_025, 0, 2_000, 2 << 56),
        (1_025, 1 << 44, 2_000, 2 << 56),
        (0, 0, 2_000, 8),
        (1, 0, 2_000, 16),
        (0, 0, 7, 5 << 56),
        (1, 0, 15, 5 << 56),
        (1_024, 0, 1_031, 5 << 56),
    ] {
        let call = memory.call(serial, 0, message);
        let (found, _) = harness::answer(&call, room);
        tally.same(
            "examples of sealing",
            &(message, serial, room),
            found,
            answer,
        );
    }
}

/// Every room up to one more than is needed, for short messages and for some long ones.
fn rooms(tally: &mut Tally) {
    let mut memory = Memory::new(13);
    for message in (0..=SHORT).chain(LONG) {
        for label in [0, 5, 8, LONGEST_LABEL] {
            let call = memory.random(label, message);
            for room in 0..=call.need() + 1 {
                tally.compare(&call, room);
            }
        }
    }

    for message in SHORT..=LONGEST_MESSAGE {
        let call = memory.random(message % (LONGEST_LABEL + 1), message);
        let need = call.need();
        for room in [0, message, need - 8, need - 1] {
            tally.expect(&call, room, &refused(Refusal::Room));
        }
    }
}

/// A message or a label or both too long, whatever serial and room.
fn too_long(tally: &mut Tally) {
    let mut memory = Memory::new(14);
    let message_bad = BAD_MESSAGES
        .iter()
        .flat_map(|&message| [0, 7, LONGEST_LABEL].map(|label| (label, message)));
    let label_bad = BAD_LABELS
        .iter()
        .flat_map(|&label| [0, 1, 8, LONGEST_MESSAGE].map(|message| (label, message)));
    let both_bad = BAD_LABELS.into_iter().zip(BAD_MESSAGES);
    for (label, message) in message_bad.chain(label_bad).chain(both_bad) {
        for serial in [0, 1, SERIAL_MAX, SERIAL_MAX + 1, u64::MAX] {
            let call = memory.call(serial, label, message);
            let need = call.need();
            for room in [0, 7, 8, LONGEST_MESSAGE + 8, need - 1, need, need + 1] {
                tally.expect(&call, room, &refused(Refusal::Length));
            }
        }
    }
}

/// A serial too great, whatever the room, for lengths within the sizes; and serials that are not.
fn serials(tally: &mut Tally) {
    let mut memory = Memory::new(15);
    for serial in frames::bad_serials(&mut Rng::new(16)) {
        for message in [0, 1, 8, 1_023, LONGEST_MESSAGE] {
            for label in [0, 1, LONGEST_LABEL] {
                let call = memory.call(serial, label, message);
                let need = call.need();
                for room in [0, need - 1, need, need + 1] {
                    tally.expect(&call, room, &refused(Refusal::Serial));
                }
            }
        }
    }

    for serial in frames::good_serials() {
        let call = memory.call(serial, 11, 19);
        tally.compare(&call, call.need());
    }
}

pub fn compare(tally: &mut Tally) {
    examples(tally);
    too_long(tally);
    serials(tally);
    rooms(tally);
    frames::each_of_equal_bytes(12, |call| tally.compare(&call, call.need()));
    frames::each_single_bit(|call| tally.compare(&call, call.need()));
    frames::each_length(11, |call, spare| tally.compare(&call, call.need() + spare));
}
