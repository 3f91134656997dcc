//! The file checker's listing, from document 01 and from request 1 of document 02.

use crate::frame::MESSAGE_MAX;
use crate::line::{self, Fields, NotALine, Reader, Refusal, END};
use crate::qarma::Key;
use std::collections::HashSet;
use std::io::{self, Write};

/// How many serials are remembered in a run.
const SERIALS_MAX: usize = 4_096;

/// What is printed for a bad key line.
pub const KEY_REFUSED: &[u8] = b"key refused\n";

/// The key of a key line: 32 lowercase hexadecimal digits, w0 then k0, and byte 0A.
pub fn key(line: &[u8]) -> Option<Key> {
    let mut reader = Reader::new(line);
    let w0 = reader.number(16, u64::MAX).ok()?;
    let k0 = reader.number(16, u64::MAX).ok()?;
    reader.end().ok()?;
    Some(Key { w0, k0 })
}

/// Why a line that opens by itself is refused, with its number in document 02.
#[derive(Clone, Copy)]
#[repr(u8)]
enum SerialRefusal {
    /// Repeated serial.
    Repeated = 8,
    /// Serial list full.
    Full = 9,
}

/// What a line carries, if it opens by itself.
fn open(key: Key, line: &[u8]) -> Result<Fields, Refusal> {
    let fields = line::read(line)?;
    line::open_frame(key, line, fields, &mut [0; MESSAGE_MAX as usize])?;
    Ok(fields)
}

/// The lines so far, and the serials of those that opened, which are all different.
#[derive(Default)]
pub struct Totals {
    lines: u64,
    serials: HashSet<u64>,
}

impl Totals {
    /// Prints what is said of the next line. It comes with its byte 0A, if it has one.
    pub fn line(&mut self, key: Key, line: &[u8], out: &mut impl Write) -> io::Result<()> {
        self.lines += 1;
        let number = self.lines;
        match open(key, line) {
            Err(Refusal::Line(NotALine { place })) => {
                writeln!(out, "{number} refused 7 at {place}")
            }
            Err(Refusal::Frame(refusal)) => writeln!(out, "{number} refused {}", refusal as u8),
            Ok(fields) => match self.remember(fields.serial) {
                Err(refusal) => writeln!(out, "{number} refused {}", refusal as u8),
                Ok(()) => writeln!(out, "{number} opened {}", fields.message_length),
            },
        }
    }

    /// Remembers a serial, if it is fresh and there is room for it.
    fn remember(&mut self, serial: u64) -> Result<(), SerialRefusal> {
        if self.serials.contains(&serial) {
            return Err(SerialRefusal::Repeated);
        }
        if self.serials.len() == SERIALS_MAX {
            return Err(SerialRefusal::Full);
        }
        self.serials.insert(serial);
        Ok(())
    }

    /// Prints the closing line.
    pub fn close(self, out: &mut impl Write) -> io::Result<()> {
        let (lines, opened) = (self.lines, self.serials.len() as u64);
        let refused = lines - opened;
        writeln!(out, "lines {lines} opened {opened} refused {refused}")
    }
}

/// All that is printed for this input.
pub fn listing(input: &[u8]) -> Vec<u8> {
    let mut lines = input.split_inclusive(|&byte| byte == END);
    let key = match lines.next().and_then(key) {
        None => return KEY_REFUSED.to_vec(),
        Some(key) => key,
    };
    let mut out = Vec::new();
    let mut totals = Totals::default();
    for line in lines {
        totals.line(key, line, &mut out).expect("room in memory");
    }
    totals.close(&mut out).expect("room in memory");
    out
}

#[cfg(test)]
mod tests {
    use super::*;
    use crate::frame::SERIAL_MAX;
    use crate::line::LONGEST;
    use crate::qarma::vectors::KEY;
    use std::ops::RangeInclusive;

    const KEY_LINE: &str = "84be85ce9804e94bec2802d4e0a488e9\n";
    const REFUSED: &str = "key refused\n";

    fn listed(input: impl AsRef<[u8]>) -> String {
        String::from_utf8(listing(input.as_ref())).expect("a listing is text")
    }

    /// What is printed for these lines, after a good key line.
    fn listed_lines(lines: &[&[u8]]) -> String {
        listed([&[KEY_LINE.as_bytes()], lines].concat().concat())
    }

    fn written(serial: u64, label: &[u8], message: &[u8]) -> Vec<u8> {
        let mut out = [0; LONGEST];
        let length = line::write(KEY, serial, label, message, &mut out).expect("within the sizes");
        out[..length].to_vec()
    }

    /// The shortest line with this serial.
    fn short(serial: u64) -> Vec<u8> {
        written(serial, &[], &[])
    }

    /// The same, but that nobody sealed it.
    fn unsealed(serial: u64) -> Vec<u8> {
        line::text(serial, &[], 0, &[0; 8])
    }

    /// The lines with these serials, one behind the other.
    fn all_of(serials: impl IntoIterator<Item = u64>) -> Vec<u8> {
        serials.into_iter().flat_map(short).collect()
    }

    /// What is said of the lines with these numbers, if it is the same of all.
    fn each(numbers: RangeInclusive<u64>, said: &str) -> String {
        numbers.map(|number| format!("{number} {said}\n")).collect()
    }

    #[test]
    fn the_example() {
        let input = format!("{}\n01\n", "0".repeat(32));
        let meant = "1 refused 7 at 2\nlines 1 opened 0 refused 1\n";
        assert_eq!(listed(input), meant);
    }

    #[test]
    fn keys() {
        assert_eq!(key(KEY_LINE.as_bytes()), Some(KEY));
        let ones = Key {
            w0: u64::MAX,
            k0: u64::MAX,
        };
        assert_eq!(key(format!("{}\n", "f".repeat(32)).as_bytes()), Some(ones));
    }

    #[test]
    fn bad_key_lines() {
        let digits = KEY_LINE.trim_end();
        let lines = String::from_utf8(short(5)).expect("a line is text");
        for bad in [
            "".to_string(),
            "\n".to_string(),
            digits.to_string(),
            format!("\n{KEY_LINE}"),
            format!(" {KEY_LINE}"),
            format!("{digits} \n"),
            format!("{digits}\r\n"),
            format!("{digits}0\n"),
            format!("{digits}{KEY_LINE}"),
            format!("{}\n", &digits[1..]),
            format!("0x{}\n", &digits[2..]),
            KEY_LINE.to_uppercase(),
            KEY_LINE.replace('4', "g"),
            KEY_LINE.replace('4', "-"),
        ] {
            assert_eq!(listed(&bad), REFUSED, "{bad:?}");
            if bad.ends_with('\n') {
                assert_eq!(listed(format!("{bad}{lines}")), REFUSED, "{bad:?}");
            }
        }
        assert_eq!(listed(format!("{digits}{lines}")), REFUSED);
        for at in 0..32 {
            for byte in (0..=255).filter(|byte| !b"0123456789abcdef".contains(byte)) {
                let mut bad = KEY_LINE.as_bytes().to_vec();
                bad[at] = byte;
                assert_eq!(listed(bad), REFUSED, "byte {byte:02x} at {at}");
            }
        }
    }

    #[test]
    fn no_lines() {
        assert_eq!(listed_lines(&[]), "lines 0 opened 0 refused 0\n");
        assert_eq!(listed_lines(&[b""]), "lines 0 opened 0 refused 0\n");
    }

    #[test]
    fn every_kind_of_line() {
        let good = written(5, b"label", b"a message");
        let empty = short(6);
        let longest = written(7, &[7; 32], &[8; 1_024]);
        let mut changed = good.clone();
        changed[40] ^= 1;
        let mut capital = empty.clone();
        capital[35] = b'A';
        let unended = &good[..good.len() - 1];
        let listed = listed_lines(&[
            &good, b"\n", &longest, &changed, b"\r\n", &empty, &capital, b" ", &good, unended,
        ]);
        let meant = "1 opened 9\n\
                     2 refused 7 at 0\n\
                     3 opened 1024\n\
                     4 refused 6\n\
                     5 refused 7 at 0\n\
                     6 opened 0\n\
                     7 refused 7 at 35\n\
                     8 refused 7 at 0\n\
                     9 refused 7 at 78\n\
                     lines 9 opened 3 refused 6\n";
        assert_eq!(listed, meant);
    }

    /// A last piece without byte 0A is a line, and a good line cut short.
    #[test]
    fn every_cut_of_a_file() {
        let (first, second) = (written(5, &[], b"1"), written(6, b"2", &[]));
        for cut in 1..second.len() {
            let listed = listed_lines(&[&first, &second[..cut]]);
            let meant = format!("1 opened 1\n2 refused 7 at {cut}\nlines 2 opened 1 refused 1\n");
            assert_eq!(listed, meant);
        }
        let meant = "1 opened 1\nlines 1 opened 1 refused 0\n";
        assert_eq!(listed_lines(&[&first]), meant);
        let meant = "1 opened 1\n2 opened 0\nlines 2 opened 2 refused 0\n";
        assert_eq!(listed_lines(&[&first, &second]), meant);
    }

    #[test]
    fn another_key() {
        let lines = [written(5, &[], b"1"), written(6, b"2", &[])].concat();
        let listed = listed([&[b'0'; 32], &b"\n"[..], &lines].concat());
        let meant = "1 refused 6\n2 refused 6\nlines 2 opened 0 refused 2\n";
        assert_eq!(listed, meant);
    }

    #[test]
    fn a_long_line() {
        let long = vec![b'0'; 1_000_000];
        let listed = listed_lines(&[&long, b"\n", &short(5), &long]);
        let meant = "1 refused 7 at 1\n2 opened 0\n3 refused 7 at 1\n\
                     lines 3 opened 1 refused 2\n";
        assert_eq!(listed, meant);
    }

    #[test]
    fn a_serial_twice() {
        let meant = "1 opened 0\n2 refused 8\nlines 2 opened 1 refused 1\n";
        let (line, other) = (short(5), written(5, b"label", b"a message"));
        assert_eq!(listed_lines(&[&line, &line]), meant);
        assert_eq!(listed_lines(&[&line, &other]), meant);

        let listed = listed_lines(&[&other, &line, &short(6), &other, &line, &short(7)]);
        let meant = "1 opened 9\n\
                     2 refused 8\n\
                     3 opened 0\n\
                     4 refused 8\n\
                     5 refused 8\n\
                     6 opened 0\n\
                     lines 6 opened 3 refused 3\n";
        assert_eq!(listed, meant);
    }

    #[test]
    fn refused_lines_use_up_nothing() {
        let line = short(5);
        let cut = &[&line[..35], b"\n"].concat();
        let listed = listed_lines(&[cut, &unsealed(5), &line, &unsealed(5), cut, &line]);
        let meant = "1 refused 7 at 35\n\
                     2 refused 6\n\
                     3 opened 0\n\
                     4 refused 6\n\
                     5 refused 7 at 35\n\
                     6 refused 8\n\
                     lines 6 opened 1 refused 5\n";
        assert_eq!(listed, meant);
    }

    /// Serials that differ in one bit are different, and so are those of one bit each.
    #[test]
    fn each_bit_of_a_serial_counts() {
        for serial in [0, SERIAL_MAX, 0x123_4567_89AB] {
            let serials = || (0..44).map(|bit| serial ^ 1 << bit).chain([serial]);
            let listed = listed_lines(&[&all_of(serials()), &all_of(serials())]);
            let (opened, repeated) = (each(1..=45, "opened 0"), each(46..=90, "refused 8"));
            let meant = format!("{opened}{repeated}lines 90 opened 45 refused 45\n");
            assert_eq!(listed, meant);
        }
    }

    #[test]
    fn about_as_many_serials_as_are_remembered() {
        let listed = |count| listed_lines(&[&all_of(1..=count)]);
        let opened = |count| each(1..=count, "opened 0");
        let total = "lines 4095 opened 4095 refused 0\n";
        assert_eq!(listed(4_095), opened(4_095) + total);
        let total = "lines 4096 opened 4096 refused 0\n";
        assert_eq!(listed(4_096), opened(4_096) + total);
        let end = "4097 refused 9\nlines 4097 opened 4096 refused 1\n";
        assert_eq!(listed(4_097), opened(4_096) + end);
    }

    #[test]
    fn a_full_list() {
        let full = all_of(1..=4_096);
        let (repeated, fresh) = (short(1), short(4_097));
        let listed = listed_lines(&[
            &full,
            &repeated,
            &fresh,
            &fresh,
            &unsealed(4_097),
            &unsealed(1),
            b"01\n",
            &short(4_096),
            &short(4_098),
            &repeated,
        ]);
        let meant = each(1..=4_096, "opened 0")
            + "4097 refused 8\n\
               4098 refused 9\n\
               4099 refused 9\n\
               4100 refused 6\n\
               4101 refused 6\n\
               4102 refused 7 at 2\n\
               4103 refused 8\n\
               4104 refused 9\n\
               4105 refused 8\n\
               lines 4105 opened 4096 refused 9\n";
        assert_eq!(listed, meant);
    }

    /// What was refused before has not filled the list.
    #[test]
    fn the_last_room_in_the_list() {
        let (first, last) = (all_of(1..=4_095), short(4_096));
        let listed = listed_lines(&[
            &short(1),
            &first,
            &unsealed(4_096),
            &last,
            &last,
            &short(4_097),
        ]);
        let meant = "1 opened 0\n2 refused 8\n".to_string()
            + &each(3..=4_096, "opened 0")
            + "4097 refused 6\n\
               4098 opened 0\n\
               4099 refused 8\n\
               4100 refused 9\n\
               lines 4100 opened 4096 refused 4\n";
        assert_eq!(listed, meant);
    }
}
