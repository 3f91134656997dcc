//! The line calls: `kk_read_line`, `kk_write_line`, `kk_open_line`. What is read or opened was written
//! by the second program, unless it is said to be the library's.

use crate::frames::{
    self, Memory, BAD_LABELS, BAD_MESSAGES, LONG, LONGEST_LABEL, LONGEST_MESSAGE, SHORT,
};
use second::calls::frames::{refused, SealCall};
use second::calls::lines::{opening, reading, writing, wrote_fields, Line, READ};
use second::frame::{self, Refusal, SERIAL_MAX};
use second::harness::{self, Outcome, Part, Tally};
use second::line::{self, Fields, DIGITS, END, LONGEST};
use second::qarma::Key;
use second::rng::Rng;

/// Bytes that are no digits: those beside the digits, capitals, blanks, ends of lines, and others.
const NO_DIGITS: &[u8] = b"/:`gAFGZ \t\n\r\0x-+._\x7F\x80\xB0\xFF";

/// Where the digits of the lengths stand, the label's first and then the message's.
const LABEL_LENGTH: usize = 14;
const MESSAGE_LENGTH: usize = 16;

/// The label's place: the digits of version, serial and lengths are before it.
const LABEL: usize = 20;

/// Lent memory for more than any short message.
const AMPLE: usize = SHORT + 40;

/// Label and message lengths of short lines that more is tried on.
const LINES: [(usize, usize); 7] = [(0, 0), (0, 1), (1, 0), (3, 5), (8, 8), (2, 15), (32, 17)];

/// The line of a frame, whether or not a size is exceeded.
fn line_of(frame: &SealCall) -> Vec<u8> {
    line::text(
        frame.serial,
        frame.label,
        frame.message.len(),
        &frame.sealed(),
    )
}

/// What reading answers for the line of a frame.
fn fields_of(frame: &SealCall) -> Outcome {
    wrote_fields(Fields {
        serial: frame.serial,
        label_length: frame.label.len(),
        message_length: frame.message.len(),
        label_place: LABEL,
        sealed_place: LABEL + 2 * frame.label.len(),
    })
}

/// The line is good, and opens to the frame's message.
fn opens(tally: &mut Tally, frame: &SealCall, line: &[u8], spare: usize) {
    let message = Outcome::wrote(frame.message.to_vec());
    let room = frame.message.len() + spare;
    tally.expect(&reading(line), READ + spare, &fields_of(frame));
    tally.expect(&opening(frame.key, line), room, &message);
}

/// The line is good, and its tag or fill disagrees.
fn disagrees(tally: &mut Tally, key: Key, line: &[u8], message: usize) {
    let (answer, _) = harness::answer(&reading(line), READ);
    tally.same("a good line", &Line(line), answer, READ as u64);
    tally.expect(&opening(key, line), message + 9, &refused(Refusal::Tag));
}

/// The bytes are no line, and this is the place, whatever the room.
fn no_line(tally: &mut Tally, key: Key, line: &[u8], place: usize) {
    let meant = Outcome::not_a_line(place);
    for room in [0, AMPLE] {
        tally.expect(&reading(line), room, &meant);
        tally.expect(&opening(key, line), room, &meant);
    }
}

/// The bytes are what the second program says.
fn compare_line(tally: &mut Tally, key: Key, line: &[u8]) {
    for room in [0, AMPLE] {
        tally.compare(&reading(line), room);
        tally.compare(&opening(key, line), room);
    }
}

/// Each of the short lines, with its frame.
fn each_line(seed: u64, mut each: impl FnMut(&SealCall, &[u8])) {
    let mut memory = Memory::new(seed);
    for (label, message) in LINES {
        let frame = memory.random(label, message);
        each(&frame, &Part::new(&line_of(&frame)));
    }
}

/// The examples of document 01 that lines can show, and their returned numbers.
fn examples(tally: &mut Tally) {
    let mut memory = Memory::new(40);
    for (label, message, serial, room, answer) in [
        (0, 0, 0, 3_000, 37),
        (0, 1, 0, 3_000, 53),
        (32, 1_024, SERIAL_MAX, 2_149, 2_149),
        (0, 0, 0, 36, 5 << 56),
        (0, 1, 0, 52, 5 << 56),
        (32, 1_024, 0, 2_148, 5 << 56),
        (0, 1_025, 0, 3_000, 2 << 56),
        (0, 1_025, 1 << 44, 3_000, 2 << 56),
    ] {
        let call = writing(memory.call(serial, label, message));
        let (found, _) = harness::answer(&call, room);
        let inputs = (label, message, serial, room);
        tally.same("examples of writing", &inputs, found, answer);
    }

    let key = memory.key();
    no_line(tally, key, b"", 0);
    no_line(tally, key, b"01\n", 2);
    let sealed = "0123456789abcdef";
    for (line, answer) in [
        (
            format!("01000000000000000000{sealed}\n"),
            Ok([0, 0, 0, 20, 20]),
        ),
        (
            format!("010fffffffffff030000ffffff{sealed}\n"),
            Ok([SERIAL_MAX, 3, 0, 20, 26]),
        ),
        (
            format!("0100000000002a020009a0b1{sealed}{sealed}{sealed}\n"),
            Ok([42, 2, 9, 20, 24]),
        ),
        (
            format!("01000000000000200400{}{sealed}\n", "0".repeat(64 + 2_048)),
            Ok([0, 32, 1_024, 20, 84]),
        ),
        (
            format!("01000000000000210000{}{sealed}\n", "0".repeat(66)),
            Err(15),
        ),
    ] {
        let line = line.as_bytes();
        match answer {
            Ok(words) => {
                let bytes = words.iter().flat_map(|word: &u64| word.to_be_bytes());
                tally.expect(&reading(line), READ, &Outcome::wrote(bytes.collect()));
            }
            Err(place) => no_line(tally, key, line, place),
        }
    }
}

/// Every cut of short lines and of long ones. In memory each goes on as the line does.
fn cuts(tally: &mut Tally) {
    let mut memory = Memory::new(41);
    let long = [(0, LONGEST_MESSAGE), (LONGEST_LABEL, LONGEST_MESSAGE)];
    for (label, message) in LINES.into_iter().chain(long) {
        let frame = memory.random(label, message);
        let line = line_of(&frame);
        for cut in 0..line.len() {
            no_line(tally, frame.key, &line[..cut], cut);
        }
        opens(tally, &frame, &line, 0);
    }
}

/// Every byte of short lines replaced by each other value.
fn replaced(tally: &mut Tally) {
    each_line(42, |frame, line| {
        for at in 0..line.len() {
            for byte in (0..=255).filter(|byte| *byte != line[at]) {
                let mut changed = line.to_vec();
                changed[at] = byte;
                let changed = &Part::new(&changed);
                let is_digit = DIGITS.contains(&byte) && at < line.len() - 1;
                if !is_digit || at < 3 {
                    no_line(tally, frame.key, changed, at);
                } else if (LABEL_LENGTH..LABEL).contains(&at) {
                    compare_line(tally, frame.key, changed);
                } else {
                    disagrees(tally, frame.key, changed, frame.message.len());
                }
            }
        }
    });
}

/// Every bit of short lines changed by itself, their end's among them.
fn changed_bits(tally: &mut Tally) {
    each_line(43, |frame, line| {
        for bit in 0..8 * line.len() {
            let mut changed = line.to_vec();
            changed[bit / 8] ^= 1 << (bit % 8);
            compare_line(tally, frame.key, &Part::new(&changed));
        }
    });
}

/// Capital digits, one or all of a line: refused at the first.
fn capitals(tally: &mut Tally) {
    each_line(44, |frame, line| {
        let letters = (0..line.len()).filter(|&at| line[at].is_ascii_lowercase());
        for at in letters.clone() {
            let mut changed = line.to_vec();
            changed[at].make_ascii_uppercase();
            no_line(tally, frame.key, &changed, at);
        }
        if let Some(first) = letters.min() {
            no_line(tally, frame.key, &line.to_ascii_uppercase(), first);
        }
    });
}

/// A byte more: one that is no digit is refused where it stands. Byte 0A before the end is an end, and
/// after the end every byte is refused.
fn inserted(tally: &mut Tally) {
    each_line(45, |frame, line| {
        let last = line.len() - 1;
        let with = |at: usize, byte| Part::new(&[&line[..at], &[byte], &line[at..]].concat());
        for at in 0..last {
            for &byte in NO_DIGITS {
                no_line(tally, frame.key, &with(at, byte), at);
            }
            for &byte in DIGITS {
                compare_line(tally, frame.key, &with(at, byte));
            }
        }
        for byte in (0..=255).filter(|byte| *byte != END) {
            no_line(tally, frame.key, &with(last, byte), last);
        }
        for byte in 0..=255 {
            no_line(tally, frame.key, &with(line.len(), byte), line.len());
        }
        for more in [line, b"\r\n", b"\n\n", &[0; 100], &[b'0'; 5_000]] {
            let longer = [line, more].concat();
            no_line(tally, frame.key, &longer, line.len());
        }
    });
}

/// A byte, or two or three, lost.
fn lost(tally: &mut Tally) {
    each_line(46, |frame, line| {
        for count in 1..=3 {
            for at in 0..=line.len() - count {
                let shorter = [&line[..at], &line[at + count..]].concat();
                compare_line(tally, frame.key, &Part::new(&shorter));
            }
        }
    });
}

/// Several changes at once, with digits and with any bytes.
fn random_changes(tally: &mut Tally) {
    let mut rng = Rng::new(47);
    each_line(48, |frame, line| {
        for _ in 0..1_000 {
            let mut changed = line.to_vec();
            for _ in 0..1 + rng.word() % 3 {
                let at = rng.word() as usize % line.len();
                let random = rng.word();
                changed[at] = if random % 4 == 0 {
                    (random >> 8) as u8
                } else {
                    DIGITS[(random >> 8) as usize % 16]
                };
            }
            compare_line(tally, frame.key, &Part::new(&changed));
        }
    });
}

/// Each digit that a serial has.
fn serials(tally: &mut Tally) {
    let mut memory = Memory::new(49);
    for serial in frames::good_serials() {
        let frame = memory.call(serial, 11, 19);
        opens(tally, &frame, &line_of(&frame), 0);
    }
    for top in 1..16 {
        let frame = memory.call(top << 44 | 5, 11, 19);
        no_line(tally, frame.key, &line_of(&frame), 2);
    }
}

/// Every label length that two digits have, before as many bytes, sealed with them all.
fn label_lengths(tally: &mut Tally) {
    let mut memory = Memory::new(50);
    for label in 0..=255 {
        for message in [0, 5] {
            let frame = memory.random(label, message);
            let line = Part::new(&line_of(&frame));
            match label {
                0..=0x20 => opens(tally, &frame, &line, 0),
                0x21..=0x2F => no_line(tally, frame.key, &line, LABEL_LENGTH + 1),
                _ => no_line(tally, frame.key, &line, LABEL_LENGTH),
            }
        }
    }
}

/// The place of a message length that is too great.
fn place_of_length(message: usize) -> usize {
    MESSAGE_LENGTH
        + match message {
            0x0401..=0x040F => 3,
            0x0410..=0x04FF => 2,
            0x0500..=0x0FFF => 1,
            _ => 0,
        }
}

/// Every message length that four digits have: the good ones before a byte or a block too few or too
/// many, the others before some bytes and, at the edges, before all, sealed.
fn message_lengths(tally: &mut Tally) {
    let mut memory = Memory::new(51);
    let key = memory.key();
    for message in 0..=LONGEST_MESSAGE {
        let label = message % (LONGEST_LABEL + 1);
        let sealed = frame::sealed_length(message);
        let end = line::length(label, message) - 1;
        for wrong in [0, sealed - 8, sealed - 1, sealed + 1, sealed + 8] {
            let label = &memory.bytes[..label];
            let line = line::text(3, label, message, &memory.bytes[..wrong]);
            no_line(tally, key, &line, end.min(line.len() - 1));
        }
    }
    for message in LONGEST_MESSAGE + 1..=0xFFFF {
        let line = line::text(3, b"label", message, &[0; 24]);
        tally.expect(
            &reading(&line),
            READ,
            &Outcome::not_a_line(place_of_length(message)),
        );
    }
    let edges = [
        0x040F, 0x0410, 0x04FF, 0x0500, 0x0FFF, 0x1000, 0x4000, 0xFFFF,
    ];
    let four_digits = BAD_MESSAGES
        .into_iter()
        .filter(|message| *message <= 0xFFFF);
    for message in four_digits.chain(edges) {
        let frame = memory.random(4, message);
        no_line(tally, frame.key, &line_of(&frame), place_of_length(message));
    }
}

/// A million bytes and more, without an end or with it too late.
fn long_lines(tally: &mut Tally) {
    let mut memory = Memory::new(52);
    let key = memory.key();
    let million = |byte| vec![byte; 1_000_000];
    let after = |line: &[u8], byte| [line, &million(byte)].concat();
    let shortest = line_of(&memory.random(0, 0));
    let longest = line_of(&memory.random(LONGEST_LABEL, LONGEST_MESSAGE));
    let unended = &longest[..LONGEST - 1];
    for (line, place) in [
        (million(b'0'), 1),
        (million(b'f'), 0),
        (million(b' '), 0),
        (million(END), 0),
        (million(0x00), 0),
        (million(0xFF), 0),
        (after(b"01", b'0'), 36),
        (after(b"01000000000000200400", b'a'), LONGEST - 1),
        (after(unended, b'0'), LONGEST - 1),
        (after(unended, b' '), LONGEST - 1),
        (after(unended, b'\r'), LONGEST - 1),
        (after(&longest, b'0'), LONGEST),
        (after(&longest, END), LONGEST),
        (after(&shortest, b'0'), 37),
        (shortest.repeat(30_000), 37),
        ([after(b"01", b'0'), vec![END]].concat(), 36),
    ] {
        no_line(tally, key, &line, place);
    }
}

/// Every room for reading's answer, for good lines and bad ones: 7 is before 5.
fn read_rooms(tally: &mut Tally) {
    let mut memory = Memory::new(53);
    let long = (LONGEST_LABEL, LONGEST_MESSAGE);
    for (label, message) in LINES.into_iter().chain([long]) {
        let frame = memory.random(label, message);
        let line = line_of(&frame);
        for room in 0..=READ + 1 {
            let meant = if room < READ {
                refused(Refusal::Room)
            } else {
                fields_of(&frame)
            };
            tally.expect(&reading(&line), room, &meant);
            let cut = line.len() - 1;
            let meant = Outcome::not_a_line(cut);
            tally.expect(&reading(&line[..cut]), room, &meant);
            let longer = [&line[..], b"0"].concat();
            let meant = Outcome::not_a_line(line.len());
            tally.expect(&reading(&longer), room, &meant);
        }
    }
}

/// Every room for a line up to one more than is needed, for short messages; for some long ones those
/// from 150 less, and for all others some, room for the sealed bytes but not for the line among them.
fn write_rooms(tally: &mut Tally) {
    let mut memory = Memory::new(54);
    for message in (0..=SHORT).chain(LONG) {
        for label in [0, 1, 13, LONGEST_LABEL] {
            let call = writing(memory.random(label, message));
            for room in (0..call.need()).rev().take(150) {
                tally.expect(&call, room, &refused(Refusal::Room));
            }
            tally.compare(&call, call.need());
            tally.compare(&call, call.need() + 1);
        }
    }
    for message in SHORT..=LONGEST_MESSAGE {
        let call = writing(memory.random(message % (LONGEST_LABEL + 1), message));
        let (need, sealed) = (call.need(), call.frame.need());
        for room in [0, sealed, 2 * sealed, need - 2, need - 1] {
            tally.expect(&call, room, &refused(Refusal::Room));
        }
    }
}

/// A message or a label or both too long, whatever serial and room.
fn write_too_long(tally: &mut Tally) {
    let mut memory = Memory::new(55);
    let message_bad = BAD_MESSAGES
        .iter()
        .flat_map(|&message| [0, 7, LONGEST_LABEL].map(|label| (label, message)));
    let label_bad = BAD_LABELS
        .iter()
        .flat_map(|&label| [0, 1, LONGEST_MESSAGE].map(|message| (label, message)));
    let both_bad = BAD_LABELS.into_iter().zip(BAD_MESSAGES);
    for (label, message) in message_bad.chain(label_bad).chain(both_bad) {
        for serial in [1, SERIAL_MAX + 1, u64::MAX] {
            let call = writing(memory.call(serial, label, message));
            let need = call.need();
            for room in [0, LONGEST, need - 1, need] {
                tally.expect(&call, room, &refused(Refusal::Length));
            }
        }
    }
}

/// A serial too great, whatever the room, for lengths within the sizes.
fn write_bad_serials(tally: &mut Tally) {
    let mut memory = Memory::new(56);
    for serial in frames::bad_serials(&mut Rng::new(57)) {
        for (label, message) in [(0, 0), (LONGEST_LABEL, 1), (1, LONGEST_MESSAGE)] {
            let call = writing(memory.call(serial, label, message));
            let need = call.need();
            for room in [0, need - 1, need, need + 1] {
                tally.expect(&call, room, &refused(Refusal::Serial));
            }
        }
    }
}

/// A frame's line as the second program writes it; and, as the library wrote it, read and opened.
fn written(tally: &mut Tally, frame: SealCall, spare: usize) {
    let call = writing(frame);
    tally.compare(&call, call.need() + spare);
    let (_, line) = harness::answer(&call, call.need());
    opens(tally, &frame, &line, spare);
}

/// Every room for the message up to one more than is needed. A room too short comes before a tag that
/// disagrees, and a bad line before both.
fn open_rooms(tally: &mut Tally) {
    let mut memory = Memory::new(58);
    for message in (0..=SHORT).chain(LONG) {
        let label = message % (LONGEST_LABEL + 1);
        let frame = memory.random(label, message);
        let line = line_of(&frame);
        let last = line.len() - 2;
        let mut disagreeing = line.clone();
        disagreeing[last] = if line[last] == b'0' { b'1' } else { b'0' };
        let mut bad = line.clone();
        bad[last] = b'A';
        for room in (0..=message + 1).rev().take(SHORT + 2).chain([0]) {
            let short = room < message;
            let right = if short {
                refused(Refusal::Room)
            } else {
                Outcome::wrote(frame.message.to_vec())
            };
            let wrong = refused(if short { Refusal::Room } else { Refusal::Tag });
            tally.expect(&opening(frame.key, &line), room, &right);
            tally.expect(&opening(frame.key, &disagreeing), room, &wrong);
            let meant = Outcome::not_a_line(last);
            tally.expect(&opening(frame.key, &bad), room, &meant);
            let meant = Outcome::not_a_line(last + 1);
            tally.expect(&opening(frame.key, &line[..=last]), room, &meant);
        }
    }
}

/// Every bit of the key, and other keys.
fn other_keys(tally: &mut Tally) {
    each_line(59, |frame, line| {
        let Key { w0, k0 } = frame.key;
        let bits = (0..64).map(|bit| 1 << bit);
        let changed = bits.flat_map(|bit| [(w0 ^ bit, k0), (w0, k0 ^ bit)]);
        for (w0, k0) in changed.chain([(k0, w0), (0, 0), (!w0, !k0)]) {
            disagrees(tally, Key { w0, k0 }, line, frame.message.len());
        }
    });
}

/// Lines that state another message length for sealed bytes: 6 if they are as many, and else 7.
fn other_lengths(tally: &mut Tally) {
    let mut memory = Memory::new(60);
    for message in 0..=SHORT {
        let frame = memory.random(message, message);
        let sealed = frame.sealed();
        for length in (0..=2 * SHORT).filter(|length| *length != message) {
            let line = line::text(frame.serial, frame.label, length, &sealed);
            if frame::sealed_length(length) == sealed.len() {
                disagrees(tally, frame.key, &line, length);
            } else {
                let end = line::length(frame.label.len(), length) - 1;
                no_line(tally, frame.key, &line, end.min(line.len() - 1));
            }
        }
    }
}

/// A last block with another fill, under the tag that belongs to it.
fn fills(tally: &mut Tally) {
    let mut memory = Memory::new(61);
    for message in (1..SHORT).filter(|message| message % 8 != 0) {
        let frame = memory.random(9, message);
        let blocks: Vec<u64> = frame::blocks(frame.message).collect();
        let (last, before) = blocks.split_last().expect("a block");
        for bit in 0..64 - 8 * (message % 8) {
            let blocks = before.iter().copied().chain([last ^ 1 << bit]);
            let sealed = frame.sealed_blocks(message, blocks);
            let line = line::text(frame.serial, frame.label, message, &sealed);
            disagrees(tally, frame.key, &line, message);
        }
    }
}

pub fn compare(tally: &mut Tally) {
    examples(tally);
    cuts(tally);
    replaced(tally);
    changed_bits(tally);
    capitals(tally);
    inserted(tally);
    lost(tally);
    random_changes(tally);
    serials(tally);
    label_lengths(tally);
    message_lengths(tally);
    long_lines(tally);
    read_rooms(tally);
    write_rooms(tally);
    write_too_long(tally);
    write_bad_serials(tally);
    open_rooms(tally);
    other_keys(tally);
    other_lengths(tally);
    fills(tally);
    frames::each_of_equal_bytes(62, |frame| written(tally, frame, 0));
    frames::each_single_bit(|frame| written(tally, frame, 0));
    frames::each_length(63, |frame, spare| written(tally, frame, spare));
}
