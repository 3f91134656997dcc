//! Files for a checker: a key line, then lines, good and damaged.

use second::frame::SERIAL_MAX;
use second::line::{self, DIGITS, END, LONGEST};
use second::qarma::{vectors, Key};
use second::rng::Rng;

pub fn key_line(key: Key) -> Vec<u8> {
    let Key { w0, k0 } = key;
    format!("{w0:016x}{k0:016x}\n").into_bytes()
}

/// The line of a frame within the sizes.
pub fn line(key: Key, serial: u64, label: &[u8], message: &[u8]) -> Vec<u8> {
    let mut out = [0; LONGEST];
    let length = line::write(key, serial, label, message, &mut out).expect("within the sizes");
    out[..length].to_vec()
}

/// Random lines under one key.
pub struct Lines {
    pub rng: Rng,
    pub key: Key,
    /// That of the last line.
    pub serial: u64,
}

impl Lines {
    pub fn new(seed: u64) -> Self {
        let mut rng = Rng::new(seed);
        let key = Key {
            w0: rng.word(),
            k0: rng.word(),
        };
        let serial = rng.word() & SERIAL_MAX >> 1;
        Self { rng, key, serial }
    }

    pub fn key_line(&self) -> Vec<u8> {
        key_line(self.key)
    }

    /// A random number below this one.
    pub fn below(&mut self, number: usize) -> usize {
        self.rng.below(number)
    }

    /// A good line with a label and a message of these lengths, the serial after the last one's.
    pub fn sized(&mut self, label: usize, message: usize) -> Vec<u8> {
        self.serial += 1;
        let label = self.rng.bytes(label);
        let message = self.rng.bytes(message);
        line(self.key, self.serial, &label, &message)
    }

    /// A good line. Of 64 messages 48 have up to 24 bytes, 15 up to 128, and one up to 1,024; half of
    /// the labels have up to 8 bytes, half up to 32.
    pub fn good(&mut self) -> Vec<u8> {
        let label = [8, 32][self.below(2)];
        let message = match self.below(64) {
            0..=47 => 24,
            48..=62 => 128,
            _ => 1_024,
        };
        let (label, message) = (self.below(label + 1), self.below(message + 1));
        self.sized(label, message)
    }

    /// A line that is damaged in one of the ways below, all equally often.
    pub fn damaged(&mut self) -> Vec<u8> {
        let mut line = self.good();
        let damage = DAMAGES[self.below(DAMAGES.len())];
        damage(&mut line, self);
        line
    }

    /// The next line: three of four are good. It has one byte 0A, at its end.
    pub fn mixed(&mut self) -> Vec<u8> {
        if self.below(4) > 0 {
            self.good()
        } else {
            self.damaged()
        }
    }

    /// The key line and so many lines of those.
    pub fn file(&mut self, count: usize) -> Vec<u8> {
        let mut file = self.key_line();
        for _ in 0..count {
            file.extend(self.mixed());
        }
        file
    }

    /// The place of some byte before the end.
    fn place(&mut self, line: &[u8]) -> usize {
        self.below(line.len() - 1)
    }
}

/// Each leaves the end of the line where it is, and makes no other.
const DAMAGES: [fn(&mut Vec<u8>, &mut Lines); 14] = [
    // Another digit, anywhere, in the head, or in the last byte of the tag.
    |line, lines| {
        let at = lines.place(line);
        line[at] = DIGITS[lines.below(16)];
    },
    |line, lines| line[lines.below(20)] = DIGITS[lines.below(16)],
    |line, lines| {
        let at = line.len() - 2;
        line[at] = DIGITS[lines.below(16)];
    },
    // Another bit. No digit is one bit away from byte 0A.
    |line, lines| {
        let at = lines.place(line);
        line[at] ^= 1 << lines.below(8);
    },
    // Another byte.
    |line, lines| {
        let at = lines.place(line);
        line[at] = not_an_end(lines.rng.word() as u8);
    },
    // What an editor does: capital digits, one or all; blanks at the end; byte 0D before the end.
    |line, lines| {
        let from = lines.place(line);
        if let Some(letter) = line[from..]
            .iter_mut()
            .find(|byte| byte.is_ascii_lowercase())
        {
            letter.make_ascii_uppercase();
        }
    },
    |line, _| line.make_ascii_uppercase(),
    |line, lines| {
        for _ in 0..=lines.below(3) {
            line.insert(line.len() - 1, b' ');
        }
    },
    |line, _| line.insert(line.len() - 1, b'\r'),
    // A byte lost or doubled; a line cut short, or to nothing.
    |line, lines| {
        line.remove(lines.place(line));
    },
    |line, lines| {
        let at = lines.place(line);
        line.insert(at, line[at]);
    },
    |line, lines| {
        let at = lines.place(line);
        line.drain(at..line.len() - 1);
    },
    |line, _| {
        line.drain(..line.len() - 1);
    },
    // Sealed under another key.
    |line, lines| {
        let Key { w0, k0 } = lines.key;
        let key = Key { w0: w0 ^ 1, k0 };
        *line = self::line(key, lines.serial, b"label", b"a message");
    },
];

/// The byte itself, or another if it is 0A.
fn not_an_end(byte: u8) -> u8 {
    if byte == END {
        b'\t'
    } else {
        byte
    }
}

/// A card of the sample files.
fn card(serial: u64, lane: &str, profile: &str) -> Vec<u8> {
    line(vectors::KEY, serial, lane.as_bytes(), profile.as_bytes())
}

/// The card with another digit.
fn with_another_digit(mut card: Vec<u8>) -> Vec<u8> {
    let digit = &mut card[40];
    *digit = if *digit == b'7' { b'8' } else { b'7' };
    card
}

/// The sample files of two meets, for their differences: two cards are in the first alone, two in the
/// second alone, one has another label and one another digit, and two are the same.
pub fn before() -> Vec<u8> {
    [
        card(1_001, "lane 1", "push 10 hold 40"),
        card(1_002, "lane 2", "push 8 hold 40 for juniors"),
        card(1_003, "lane 3", "push 11 hold 40"),
        card(1_004, "lane 4", "push 9 hold 35"),
        card(1_008, "lane 8, by the stairs", ""),
        card(1_010, "lane 5", "push 12 hold 40"),
    ]
    .concat()
}

pub fn after() -> Vec<u8> {
    [
        card(1_008, "lane 8, by the stairs", ""),
        card(1_001, "lane 1", "push 10 hold 40"),
        card(1_002, "lane 2, by the wall", "push 8 hold 40 for juniors"),
        with_another_digit(card(1_004, "lane 4", "push 9 hold 35")),
        card(1_012, "lane 5", "push 12 hold 45"),
        card(1_011, "lane 3", "push 11 hold 45"),
    ]
    .concat()
}

/// The sample file: cards of eight lanes, as they come back from a volunteer's editor, and behind them
/// a card of last season, whose serial is used again.
pub fn cards() -> Vec<u8> {
    let last = |line: &[u8]| line.len() - 1;

    let mut capital = card(1_003, "lane 3", "push 11 hold 40");
    let letter = capital
        .iter_mut()
        .rev()
        .find(|byte| byte.is_ascii_lowercase());
    letter.expect("a letter").make_ascii_uppercase();

    let mut blank = card(1_004, "lane 4", "push 9 hold 35");
    blank.insert(last(&blank), b' ');

    let mut returned = card(1_005, "lane 5", "push 12 hold 40");
    returned.insert(last(&returned), b'\r');

    let mut cut = card(1_007, "lane 7", "push 10 hold 45");
    cut.drain(60..last(&cut));

    let name = "lane 8, by the stairs";
    [
        key_line(vectors::KEY),
        card(1_001, "lane 1", "push 10 hold 40"),
        card(1_002, "lane 2", "push 8 hold 40 for juniors"),
        capital,
        blank,
        returned,
        with_another_digit(card(1_006, "lane 6", "push 10 hold 40")),
        cut,
        b"\n".to_vec(),
        card(1_008, name, ""),
        card(1_009, "", "push 10 hold 40, any lane"),
        card(1_001, "lane 1", "push 12 hold 45"),
    ]
    .concat()
}
