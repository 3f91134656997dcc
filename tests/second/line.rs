//! Frame lines, from document 01: "The frame line", refusal 7 and its place.

use crate::frame::{self, LABEL_MAX, MESSAGE_MAX, SERIAL_MAX};
use crate::qarma::Key;

/// What a line begins with.
const VERSION: &str = "01";

/// The digits of serial, label length and message length.
const SERIAL_DIGITS: usize = 12;
const LABEL_LENGTH_DIGITS: usize = 2;
const MESSAGE_LENGTH_DIGITS: usize = 4;

/// The digits of all these: the label's place.
const HEAD: usize = VERSION.len() + SERIAL_DIGITS + LABEL_LENGTH_DIGITS + MESSAGE_LENGTH_DIGITS;

/// The byte that ends a line.
pub const END: u8 = 0x0A;

/// The bytes of the longest good line.
pub const LONGEST: usize = length(LABEL_MAX as usize, MESSAGE_MAX as usize);

pub const DIGITS: &[u8; 16] = b"0123456789abcdef";

/// The fields of a good line, and the places of its label and of its sealed bytes.
#[derive(Clone, Copy, Debug, PartialEq, Eq)]
pub struct Fields {
    pub serial: u64,
    pub label_length: usize,
    pub message_length: usize,
    pub label_place: usize,
    pub sealed_place: usize,
}

/// Refusal 7.
#[derive(Clone, Copy, Debug, PartialEq, Eq)]
pub struct NotALine {
    pub place: usize,
}

/// The refusals of document 01 that opening a line can give.
#[derive(Clone, Copy, Debug, PartialEq, Eq)]
pub enum Refusal {
    Line(NotALine),
    Frame(frame::Refusal),
}

impl From<NotALine> for Refusal {
    fn from(refusal: NotALine) -> Self {
        Self::Line(refusal)
    }
}

impl From<frame::Refusal> for Refusal {
    fn from(refusal: frame::Refusal) -> Self {
        Self::Frame(refusal)
    }
}

/// How many bytes the line of a frame has, with its end.
pub const fn length(label_length: usize, message_length: usize) -> usize {
    HEAD + 2 * (label_length + frame::sealed_length(message_length)) + 1
}

/// The value of a lowercase hexadecimal digit.
fn digit(byte: u8) -> Option<u64> {
    match byte {
        b'0'..=b'9' => Some(u64::from(byte - b'0')),
        b'a'..=b'f' => Some(u64::from(byte - b'a') + 10),
        _ => None,
    }
}

/// Reads a line from its first byte on. It stops at the first byte with which no good line goes on,
/// or where a byte is missing: this is the place of refusal 7.
pub struct Reader<'a> {
    line: &'a [u8],
    place: usize,
}

impl<'a> Reader<'a> {
    pub fn new(line: &'a [u8]) -> Self {
        Self { line, place: 0 }
    }

    fn refusal(&self) -> NotALine {
        NotALine { place: self.place }
    }

    /// What the next byte is taken for, if it is taken.
    fn next<T>(&mut self, take: impl FnOnce(u8) -> Option<T>) -> Result<T, NotALine> {
        let byte = self.line.get(self.place);
        let taken = byte.and_then(|&byte| take(byte));
        let taken = taken.ok_or_else(|| self.refusal())?;
        self.place += 1;
        Ok(taken)
    }

    /// This byte and no other.
    fn byte(&mut self, byte: u8) -> Result<(), NotALine> {
        self.next(|next| (next == byte).then_some(()))
    }

    /// A number of so many digits. A digit is taken if the number is not too great with zeros in the
    /// place of the digits after it.
    pub fn number(&mut self, digits: usize, max: u64) -> Result<u64, NotALine> {
        let mut number = 0;
        for after in (0..digits).rev() {
            number = self.next(|byte| {
                let number = number << 4 | digit(byte)?;
                (number << (4 * after) <= max).then_some(number)
            })?;
        }
        Ok(number)
    }

    /// The place of so many bytes, two digits each.
    fn bytes(&mut self, count: usize) -> Result<usize, NotALine> {
        let place = self.place;
        for _ in 0..2 * count {
            self.next(digit)?;
        }
        Ok(place)
    }

    /// Byte 0A, and nothing after it.
    pub fn end(&mut self) -> Result<(), NotALine> {
        self.byte(END)?;
        if self.place < self.line.len() {
            return Err(self.refusal());
        }
        Ok(())
    }
}

/// What a good line carries, or the place at which the bytes are refused.
pub fn read(line: &[u8]) -> Result<Fields, NotALine> {
    let mut reader = Reader::new(line);
    for byte in VERSION.bytes() {
        reader.byte(byte)?;
    }
    let serial = reader.number(SERIAL_DIGITS, SERIAL_MAX)?;
    let label_length = reader.number(LABEL_LENGTH_DIGITS, LABEL_MAX)? as usize;
    let message_length = reader.number(MESSAGE_LENGTH_DIGITS, MESSAGE_MAX)? as usize;
    let label_place = reader.bytes(label_length)?;
    let sealed_place = reader.bytes(frame::sealed_length(message_length))?;
    reader.end()?;
    Ok(Fields {
        serial,
        label_length,
        message_length,
        label_place,
        sealed_place,
    })
}

/// The line of any fields: whether a size is exceeded, or the sealed bytes are as many as they should
/// be, is not looked at.
pub fn text(serial: u64, label: &[u8], message_length: usize, sealed: &[u8]) -> Vec<u8> {
    let label_length = label.len();
    let head = format!("{VERSION}{serial:012x}{label_length:02x}{message_length:04x}");
    let mut line = head.into_bytes();
    for &byte in label.iter().chain(sealed) {
        line.push(DIGITS[usize::from(byte >> 4)]);
        line.push(DIGITS[usize::from(byte & 15)]);
    }
    line.push(END);
    line
}

/// Writes the line of the sealed message and answers how many bytes it has.
pub fn write(
    key: Key,
    serial: u64,
    label: &[u8],
    message: &[u8],
    out: &mut [u8],
) -> Result<usize, frame::Refusal> {
    let mut sealed = vec![0; frame::sealed_length(message.len())];
    frame::seal(key, serial, label, message, &mut sealed)?;
    let line = text(serial, label, message.len(), &sealed);
    if out.len() < line.len() {
        return Err(frame::Refusal::Room);
    }

    out[..line.len()].copy_from_slice(&line);
    Ok(line.len())
}

/// The bytes of these digits, two for each.
fn bytes(digits: &[u8]) -> Vec<u8> {
    let value = |byte| digit(byte).expect("a digit") as u8;
    let byte = |pair: &[u8]| value(pair[0]) << 4 | value(pair[1]);
    digits.chunks_exact(2).map(byte).collect()
}

/// Writes the message of the line's frame and answers its length.
pub fn open(key: Key, line: &[u8], out: &mut [u8]) -> Result<usize, Refusal> {
    let fields = read(line)?;
    Ok(open_frame(key, line, fields, out)?)
}

/// The same for a good line, of which these fields were read.
pub fn open_frame(
    key: Key,
    line: &[u8],
    fields: Fields,
    out: &mut [u8],
) -> Result<usize, frame::Refusal> {
    let label = bytes(&line[fields.label_place..fields.sealed_place]);
    let sealed = bytes(&line[fields.sealed_place..line.len() - 1]);
    let length = fields.message_length as u64;
    frame::open(key, fields.serial, length, &label, &sealed, out)
}

#[cfg(test)]
mod tests {
    use super::*;
    use crate::qarma::vectors::KEY;
    use crate::rng::Rng;

    const SERIAL: u64 = 0x0123456789A;

    fn written(label: &[u8], message: &[u8]) -> Vec<u8> {
        let mut out = vec![0; length(label.len(), message.len())];
        let length = write(KEY, SERIAL, label, message, &mut out);
        assert_eq!(length, Ok(out.len()));
        out
    }

    fn opened(line: &[u8], room: usize) -> Result<Vec<u8>, Refusal> {
        let mut out = vec![0; room];
        let length = open(KEY, line, &mut out)?;
        out.truncate(length);
        Ok(out)
    }

    fn place(line: &[u8]) -> Option<usize> {
        read(line).err().map(|NotALine { place }| place)
    }

    /// A good line by its definition. Nothing here is taken from the reader.
    fn is_good(line: &[u8]) -> bool {
        let shape = line.ends_with(&[0x0A])
            && line.len() % 2 == 1
            && (37..=2_149).contains(&line.len())
            && line[..line.len() - 1]
                .iter()
                .all(|byte| b"0123456789abcdef".contains(byte));
        if !shape {
            return false;
        }
        let text = std::str::from_utf8(line).expect("digits");
        let number = |from, to| usize::from_str_radix(&text[from..to], 16).expect("a number");
        let (label, message) = (number(14, 16), number(16, 20));
        number(0, 2) == 1
            && number(2, 3) == 0
            && label <= 32
            && message <= 1_024
            && line.len() == 20 + 2 * label + 2 * ((message + 7) / 8 * 8 + 8) + 1
    }

    /// Label and message lengths that a good line can state, and their six digits.
    struct Stated {
        label: usize,
        message: usize,
        digits: String,
    }

    /// All of them, in the order of their digits.
    fn all_stated() -> Vec<Stated> {
        let stated = |label, message| Stated {
            label,
            message,
            digits: format!("{label:02x}{message:04x}"),
        };
        (0..=32)
            .flat_map(|label| (0..=1_024).map(move |message| stated(label, message)))
            .collect()
    }

    /// Whether some good line begins so. If one does, then also the one that states the same lengths
    /// and goes on with zeros: for all lengths whose digits agree with those shown, this line is
    /// made and looked at whole. Lengths of which no digit is shown may be any, and so the first.
    fn begins(prefix: &[u8], all: &[Stated]) -> bool {
        let shown = prefix.get(14..prefix.len().min(20)).unwrap_or(&[]);
        let first = all.partition_point(|stated| stated.digits.as_bytes() < shown);
        let tried = if shown.is_empty() {
            &all[..1]
        } else {
            &all[first..]
        };
        tried
            .iter()
            .take_while(|stated| stated.digits.as_bytes().starts_with(shown))
            .any(|stated| {
                let zeros = "0".repeat(2 * (stated.label + (stated.message + 7) / 8 * 8 + 8));
                let mut line = format!("01000000000000{}{zeros}\n", stated.digits).into_bytes();
                let fits = prefix.len() <= line.len();
                if fits {
                    line[..prefix.len()].copy_from_slice(prefix);
                }
                fits && is_good(&line)
            })
    }

    /// The place by its definition, if the bytes are no good line.
    fn defined_place(line: &[u8], all: &[Stated]) -> Option<usize> {
        let first = (0..line.len()).find(|&k| !begins(&line[..=k], all));
        (!is_good(line)).then(|| first.unwrap_or(line.len()))
    }

    #[test]
    fn examples() {
        assert_eq!(written(&[], &[]).len(), 37);
        assert_eq!(written(&[], &[0]).len(), 53);
        assert_eq!(written(&[0; 32], &[0; 1_024]).len(), 2_149);
        assert_eq!(LONGEST, 2_149);
        assert_eq!(place(b"01\n"), Some(2));
        let mut line = written(&[0; 32], &[]);
        assert_eq!(place(&line), None);
        line[14..16].copy_from_slice(b"21");
        assert_eq!(place(&line), Some(15));
    }

    #[test]
    fn a_line_by_hand() {
        let line = b"010000000000010600\
            0b6c616e652034700d9ae65da4ff8b3e8beba1487cbd7f256457a88e4e54c3\n";
        let mut out = [0; 100];
        let length = write(KEY, 1, b"lane 4", b"touch 27.41", &mut out);
        assert_eq!(length, Ok(line.len()));
        assert_eq!(out[..line.len()], line[..]);
        let fields = Fields {
            serial: 1,
            label_length: 6,
            message_length: 11,
            label_place: 20,
            sealed_place: 32,
        };
        assert_eq!(read(line), Ok(fields));
        assert_eq!(opened(line, 11), Ok(b"touch 27.41".to_vec()));
    }

    #[test]
    fn good_by_definition() {
        for message in 0..=1_024 {
            let label = vec![0xE7; message % 33];
            let sealed = vec![0x3A; (message + 7) / 8 * 8 + 8];
            let line = text(SERIAL, &label, message, &sealed);
            assert!(is_good(&line));
            assert!(read(&line).is_ok());
        }
        assert!(!is_good(b""));
        assert!(!is_good(b"01\n"));
    }

    /// Every cut; and in every place another byte, instead of the one there and before it. All bytes
    /// are tried on the shortest line.
    #[test]
    fn places_by_definition() {
        let all = all_stated();
        let some: Vec<u8> = b"0129af/:`gAF \n\r\0\x80\xFF".to_vec();
        for (label, message, others) in [
            (0, 0, (0..=255).collect()),
            (0, 1, some.clone()),
            (2, 9, some),
            (32, 16, b"3G\n".to_vec()),
        ] {
            let line = written(&Rng::new(1).bytes(label), &Rng::new(2).bytes(message));
            for cut in 0..=line.len() {
                let cut = &line[..cut];
                assert_eq!(place(cut), defined_place(cut, &all));
            }
            for at in 0..=line.len() {
                for &byte in &others {
                    let before = [&line[..at], &[byte], &line[at..]].concat();
                    assert_eq!(place(&before), defined_place(&before, &all));
                    let rest = &line[line.len().min(at + 1)..];
                    let instead = [&line[..at], &[byte], rest].concat();
                    assert_eq!(place(&instead), defined_place(&instead, &all));
                }
            }
        }
    }

    /// Every label length, and message lengths of every choice of some digits, each before no bytes
    /// and, unless they are many and the line good, before as many as it calls for.
    #[test]
    fn places_of_lengths_by_definition() {
        let all = all_stated();
        let labels = (0..=255).map(|label| (label, 3));
        let digits = [0, 1, 3, 4, 5, 15];
        let messages = (0..1_296).map(|choice: usize| {
            let digit = |i: u32| digits[choice / 6_usize.pow(i) % 6];
            (2, digit(3) << 12 | digit(2) << 8 | digit(1) << 4 | digit(0))
        });
        for (label, message) in labels.chain(messages) {
            let label = vec![0x6D; label];
            let line = text(SERIAL, &label, message, &[]);
            assert_eq!(place(&line), defined_place(&line, &all));
            if !(32..=1_024).contains(&message) {
                let sealed = vec![0xB5; frame::sealed_length(message)];
                let line = text(SERIAL, &label, message, &sealed);
                assert_eq!(place(&line), defined_place(&line, &all));
            }
        }
    }

    /// Several changes at once, with digits and with any bytes.
    #[test]
    fn places_of_random_bytes_by_definition() {
        let all = all_stated();
        let mut rng = Rng::new(3);
        for i in 0..2_000 {
            let mut line = written(&[7; 32][..i % 33], &[8; 40][..i % 41]);
            for _ in 0..1 + rng.word() % 3 {
                let at = rng.word() as usize % line.len();
                let random = rng.word();
                line[at] = if random % 4 == 0 {
                    (random >> 8) as u8
                } else {
                    DIGITS[(random >> 8) as usize % 16]
                };
            }
            assert_eq!(place(&line), defined_place(&line, &all));
        }
    }

    #[test]
    fn bytes_without_end() {
        let million = |byte| vec![byte; 1_000_000];
        assert_eq!(place(&million(b'0')), Some(1));
        assert_eq!(place(&million(END)), Some(0));
        let mut longest = written(&[0; 32], &[0; 1_024]);
        assert_eq!(longest.pop(), Some(END));
        assert_eq!(place(&[longest, million(b'0')].concat()), Some(2_148));
        let after = [written(&[], &[]), million(b'0')].concat();
        assert_eq!(place(&after), Some(37));
    }

    #[test]
    fn opening_gives_back_what_was_written() {
        let bytes = Rng::new(4).bytes(1_024);
        for message in 0..=1_024 {
            let label = message % 33;
            let line = written(&bytes[..label], &bytes[1_024 - message..]);
            let fields = Fields {
                serial: SERIAL,
                label_length: label,
                message_length: message,
                label_place: 20,
                sealed_place: 20 + 2 * label,
            };
            assert_eq!(read(&line), Ok(fields));
            let message = bytes[1_024 - message..].to_vec();
            assert_eq!(opened(&line, message.len()), Ok(message));
        }
    }

    /// Every other digit in every place: the line is refused 7, or it does not open.
    #[test]
    fn every_changed_digit_is_refused() {
        let line = written(b"label", b"a message");
        for at in 0..line.len() - 1 {
            for &digit in DIGITS.iter().filter(|digit| **digit != line[at]) {
                let mut changed = line.clone();
                changed[at] = digit;
                let refusal = match read(&changed) {
                    Err(refusal) => Refusal::Line(refusal),
                    Ok(_) => Refusal::Frame(frame::Refusal::Tag),
                };
                assert_eq!(opened(&changed, 1_024), Err(refusal));
            }
        }
    }

    /// Each input is refused for the first of its faults.
    #[test]
    fn refusals_come_in_order() {
        let bytes = [0; 1_025];
        let write = |serial, label, message, room| {
            let mut out = vec![0; room];
            write(KEY, serial, &bytes[..label], &bytes[..message], &mut out)
        };
        assert_eq!(
            write(SERIAL_MAX + 1, 0, 1_025, 0),
            Err(frame::Refusal::Length)
        );
        assert_eq!(write(SERIAL_MAX + 1, 33, 0, 0), Err(frame::Refusal::Length));
        assert_eq!(
            write(SERIAL_MAX + 1, 32, 1_024, 0),
            Err(frame::Refusal::Serial)
        );
        assert_eq!(
            write(SERIAL_MAX, 32, 1_024, 2_148),
            Err(frame::Refusal::Room)
        );
        assert_eq!(write(SERIAL_MAX, 32, 1_024, 2_149), Ok(2_149));

        let mut line = written(b"label", b"a message");
        let last = line.len() - 2;
        line[last] = if line[last] == b'0' { b'1' } else { b'0' };
        assert_eq!(opened(&line, 9), Err(Refusal::Frame(frame::Refusal::Tag)));
        assert_eq!(opened(&line, 8), Err(Refusal::Frame(frame::Refusal::Room)));
        line[last] = b'G';
        let refusal = Refusal::Line(NotALine { place: last });
        assert_eq!(opened(&line, 9), Err(refusal));
        assert_eq!(opened(&line, 8), Err(refusal));
    }
}
