//! Random pairs of card files, and files of a given size. Nobody sealed their lines: no key enters into
//! comparing.

use crate::changes::BYTES_MAX;
use crate::frame::{self, LABEL_MAX, MESSAGE_MAX, SERIAL_MAX};
use crate::line::{self, Fields, DIGITS};
use crate::rng::Rng;

/// The bytes of the shortest line.
const SHORTEST: usize = line::length(0, 0);

/// The lengths of a line's label and message.
type Lengths = (usize, usize);

pub struct Pairs {
    pub rng: Rng,
}

impl Pairs {
    pub fn new(seed: u64) -> Self {
        Self {
            rng: Rng::new(seed),
        }
    }

    /// A good line with this serial.
    pub fn line(&mut self, serial: u64, (label, message): Lengths) -> Vec<u8> {
        let label = self.rng.bytes(label);
        let sealed = self.rng.bytes(frame::sealed_length(message));
        line::text(serial, &label, message, &sealed)
    }

    /// So many different serials in random order: any, of which two are the same once in millions of
    /// times; one after the other; or of two digits in each place. At most 2,048.
    pub fn serials(&mut self, count: usize) -> Vec<u64> {
        let any = self.rng.word() & SERIAL_MAX;
        let kind = self.rng.below(3);
        let a_bit_in_each_digit =
            |i: u64| -> u64 { (0..11).map(|b| (i >> b & 1) << (4 * b)).sum() };
        let mut serials: Vec<u64> = (0..count as u64)
            .map(|i| match kind {
                0 => self.rng.word() & SERIAL_MAX,
                1 => (any + i) & SERIAL_MAX,
                _ => any ^ a_bit_in_each_digit(i),
            })
            .collect();
        self.rng.shuffle(&mut serials);
        serials
    }

    /// Lengths of a line that has up to so many bytes more than the shortest, two digits for each.
    fn lengths(&mut self, most: usize) -> Lengths {
        let label = self.rng.below(most.min(LABEL_MAX as usize) + 1);
        let whole = (most - label).min(MESSAGE_MAX as usize) / 8 * 8;
        let message = 8 * self.rng.below(whole / 8 + 1);
        (label, self.of_as_many_blocks(message))
    }

    /// A message length of as many blocks.
    fn of_as_many_blocks(&mut self, message: usize) -> usize {
        match (message + 7) / 8 {
            0 => 0,
            blocks => 8 * blocks - self.rng.below(8),
        }
    }

    /// Other lengths that a line of equal length has, if there are such.
    fn of_equal_length(&mut self, (label, message): Lengths) -> Lengths {
        let longest = (LABEL_MAX as usize, MESSAGE_MAX as usize);
        let (label, message) = if label >= 8 && message + 8 <= longest.1 {
            (label - 8, message + 8)
        } else if message >= 8 && label + 8 <= longest.0 {
            (label + 8, message - 8)
        } else {
            (label, message)
        };
        (label, self.of_as_many_blocks(message))
    }

    /// Lengths of a line of another length, of up to so many bytes more than the shortest.
    fn of_other_length(&mut self, (label, message): Lengths, most: usize) -> Lengths {
        let other = self.lengths(most);
        if line::length(other.0, other.1) != line::length(label, message) {
            other
        } else if label > 0 {
            (label - 1, message)
        } else {
            (label + 1, message)
        }
    }

    /// Another line of the same serial: a digit changed behind the head, all of them, other parts of
    /// equal length, or another length.
    fn changed(&mut self, line: &[u8], fields: Fields, most: usize) -> Vec<u8> {
        let lengths = (fields.label_length, fields.message_length);
        let lengths = match self.rng.below(4) {
            0 => {
                let mut changed = line.to_vec();
                let at = fields.label_place + self.rng.below(line.len() - 1 - fields.label_place);
                changed[at] = self.rng.one_of(DIGITS);
                return changed;
            }
            1 => lengths,
            2 => self.of_equal_length(lengths),
            _ => self.of_other_length(lengths, most),
        };
        self.line(fields.serial, lengths)
    }

    /// Two files of good lines with no repeated serial, one of so many lines, the other of as many or
    /// fewer: lines are left out, exchanged for others, changed and reordered.
    pub fn pair(&mut self, count: usize) -> (Vec<u8>, Vec<u8>) {
        let fits = (BYTES_MAX / count.max(1) - SHORTEST) / 2;
        let longest = LABEL_MAX as usize + MESSAGE_MAX as usize;
        let most = match self.rng.below(32) {
            0 => longest,
            1..=8 => 13,
            _ => 40,
        };
        let most = most.min(fits).max(1);
        let serials = self.serials(2 * count);
        let (kept, others) = serials.split_at(count);
        let eighths_kept = self.rng.below(8);

        let (mut first, mut second) = (Vec::new(), Vec::new());
        for (&serial, &other) in kept.iter().zip(others) {
            let lengths = self.lengths(most);
            let line = self.line(serial, lengths);
            let fields = line::read(&line).expect("a good line");
            if self.rng.below(8) < eighths_kept {
                second.push(line.clone());
            } else {
                match self.rng.below(6) {
                    0 => {}
                    1 => second.push(self.line(other, lengths)),
                    _ => second.push(self.changed(&line, fields, most)),
                }
            }
            first.push(line);
        }
        if self.rng.below(2) == 0 {
            self.rng.shuffle(&mut second);
        }
        if self.rng.below(2) == 0 {
            std::mem::swap(&mut first, &mut second);
        }
        (first.concat(), second.concat())
    }

    /// A file of so many good lines and so many bytes, with no repeated serial. A line has an odd number
    /// of bytes, so the two are even or odd alike.
    pub fn sized(&mut self, lines: usize, bytes: usize) -> Vec<u8> {
        let mut more = (bytes - SHORTEST * lines) / 2;
        let mut file = Vec::new();
        for (i, serial) in self.serials(lines).into_iter().enumerate() {
            let here = more / (lines - i);
            let message = (here / 8 * 8).min(MESSAGE_MAX as usize);
            file.extend(self.line(serial, (here - message, message)));
            more -= here;
        }
        assert_eq!(file.len(), bytes, "as many bytes as they are to be");
        file
    }
}

#[cfg(test)]
mod tests {
    use super::*;
    use crate::changes::{self, LINES_MAX, LONGEST_REPORT};

    /// Pairs have every kind of report line, and both files may be full.
    #[test]
    fn every_kind_comes() {
        let mut pairs = Pairs::new(1);
        let mut out = [0; LONGEST_REPORT];
        for count in [0, 1, 2, 10, 100, LINES_MAX] {
            let mut kinds = std::collections::BTreeSet::new();
            for _ in 0..40 {
                let (first, second) = pairs.pair(count);
                let length = changes::compare(&first, &second, &mut out).expect("good files");
                let report = std::str::from_utf8(&out[..length]).expect("text");
                kinds.extend(report.lines().map(|line| {
                    let words: Vec<&str> = line.split(' ').collect();
                    format!("{} {}", words[0], words.len())
                }));
            }
            let meant = match count {
                0 => vec![],
                _ => vec!["both 2", "both 4", "first 2", "second 2"],
            };
            assert!(kinds.iter().eq(&meant), "{count}: {kinds:?}");
        }
    }
}
