//! What changed between two card files, from request 5 of document 02.

use crate::line::{self, NotALine, END};
use std::cmp::Ordering;
use std::io::{self, Write};

/// The limits of a file.
pub const LINES_MAX: usize = 1_024;
pub const BYTES_MAX: usize = 65_536;

/// The bytes of the longest report: every line of two full files is in one of them only.
pub const LONGEST_REPORT: usize =
    LINES_MAX * ("first 0123456789ab\n".len() + "second 0123456789ab\n".len());

/// Which of the two files, with its number.
#[derive(Clone, Copy, Debug, PartialEq, Eq)]
#[repr(u8)]
pub enum File {
    First = 1,
    Second = 2,
}

/// Why a file is refused. A line is given by its number, from 1.
#[derive(Clone, Copy, Debug, PartialEq, Eq)]
pub enum Fault {
    /// Refusal 11: the file is above either limit.
    TooLarge,
    /// Refusal 7: this line is not a good one.
    NotALine { line: usize, place: usize },
    /// Refusal 8: an earlier line has the serial of this one.
    RepeatedSerial { line: usize },
}

#[derive(Clone, Copy, Debug, PartialEq, Eq)]
pub enum Refusal {
    File(File, Fault),
    /// Refusal 5: the report doesn't fit.
    Room,
}

/// A good line of a file, with its end.
#[derive(Clone, Copy)]
struct Card<'a> {
    serial: u64,
    number: usize,
    line: &'a [u8],
}

/// The lines of a file by rising serial, if the file is all good lines with no repeated serial.
fn cards(file: &[u8]) -> Result<Vec<Card<'_>>, Fault> {
    let lines = || file.split_inclusive(|&byte| byte == END);
    if file.len() > BYTES_MAX || lines().count() > LINES_MAX {
        return Err(Fault::TooLarge);
    }

    let card = |(number, line)| match line::read(line) {
        Ok(fields) => Ok(Card {
            serial: fields.serial,
            number,
            line,
        }),
        Err(NotALine { place }) => Err(Fault::NotALine {
            line: number,
            place,
        }),
    };
    let mut cards: Vec<Card> = (1..).zip(lines()).map(card).collect::<Result<_, _>>()?;
    cards.sort_unstable_by_key(|card| (card.serial, card.number));

    let repeats = cards
        .windows(2)
        .filter(|pair| pair[0].serial == pair[1].serial)
        .map(|pair| pair[1].number);
    match repeats.min() {
        Some(line) => Err(Fault::RepeatedSerial { line }),
        None => Ok(cards),
    }
}

/// Writes the report line of two lines with this serial, if they differ.
fn report_pair(serial: u64, first: &[u8], second: &[u8], report: &mut Vec<u8>) -> io::Result<()> {
    if first.len() != second.len() {
        return writeln!(report, "both {serial:012x}");
    }
    let differences = || first.iter().zip(second).map(|(a, b)| a ^ b);
    match differences().position(|difference| difference != 0) {
        None => Ok(()),
        Some(place) => {
            let bits: u32 = differences().map(u8::count_ones).sum();
            writeln!(report, "both {serial:012x} {place} {bits}")
        }
    }
}

/// The report on lines by rising serial.
fn report(mut first: &[Card], mut second: &[Card]) -> io::Result<Vec<u8>> {
    let mut report = Vec::new();
    loop {
        let order = match (first.first(), second.first()) {
            (None, None) => return Ok(report),
            (Some(_), None) => Ordering::Less,
            (None, Some(_)) => Ordering::Greater,
            (Some(a), Some(b)) => a.serial.cmp(&b.serial),
        };
        match order {
            Ordering::Less => {
                writeln!(report, "first {:012x}", first[0].serial)?;
                first = &first[1..];
            }
            Ordering::Greater => {
                writeln!(report, "second {:012x}", second[0].serial)?;
                second = &second[1..];
            }
            Ordering::Equal => {
                let (a, b) = (first[0], second[0]);
                report_pair(a.serial, a.line, b.line, &mut report)?;
                first = &first[1..];
                second = &second[1..];
            }
        }
    }
}

/// Writes the report on two files and answers how many bytes it has.
pub fn compare(first: &[u8], second: &[u8], out: &mut [u8]) -> Result<usize, Refusal> {
    let first = cards(first).map_err(|fault| Refusal::File(File::First, fault))?;
    let second = cards(second).map_err(|fault| Refusal::File(File::Second, fault))?;
    let report = report(&first, &second).expect("room in memory");
    if out.len() < report.len() {
        return Err(Refusal::Room);
    }

    out[..report.len()].copy_from_slice(&report);
    Ok(report.len())
}

#[cfg(test)]
mod tests {
    use super::*;
    use crate::line::text;
    use crate::pairs::Pairs;
    use std::collections::{BTreeMap, BTreeSet};

    /// The shortest line with this serial, and a longer one.
    fn short(serial: u64) -> Vec<u8> {
        text(serial, &[], 0, &[0; 8])
    }

    fn longer(serial: u64) -> Vec<u8> {
        text(serial, b"label", 9, &[0; 24])
    }

    /// The shortest lines with these serials, one behind the other.
    fn all_of(serials: impl IntoIterator<Item = u64>) -> Vec<u8> {
        serials.into_iter().flat_map(short).collect()
    }

    fn compared(first: &[u8], second: &[u8]) -> Result<String, Refusal> {
        let mut out = [0; LONGEST_REPORT];
        let length = compare(first, second, &mut out)?;
        Ok(String::from_utf8(out[..length].to_vec()).expect("a report is text"))
    }

    fn fault(file: &[u8]) -> Option<Fault> {
        cards(file).err()
    }

    /// The report by its words, over the lines as text: ordered by their digits, with nothing from the reader.
    fn defined_report(first: &[u8], second: &[u8]) -> String {
        let by_serial = |file: &[u8]| -> BTreeMap<String, String> {
            let text = String::from_utf8(file.to_vec()).expect("good lines are text");
            let lines = text.lines();
            lines
                .map(|line| (line[2..14].into(), line.into()))
                .collect()
        };
        let (first, second) = (by_serial(first), by_serial(second));
        let serials: BTreeSet<_> = first.keys().chain(second.keys()).collect();
        let said = |serial: &String| match (first.get(serial), second.get(serial)) {
            (Some(_), None) => format!("first {serial}\n"),
            (None, Some(_)) => format!("second {serial}\n"),
            (Some(a), Some(b)) if a == b => String::new(),
            (Some(a), Some(b)) if a.len() != b.len() => format!("both {serial}\n"),
            (Some(a), Some(b)) => {
                let bit = |line: &str, i: usize| line.as_bytes()[i / 8] >> (7 - i % 8) & 1;
                let differ: Vec<_> = (0..8 * a.len())
                    .filter(|&i| bit(a, i) != bit(b, i))
                    .collect();
                format!("both {serial} {} {}\n", differ[0] / 8, differ.len())
            }
            (None, None) => unreachable!("a serial of either"),
        };
        serials.into_iter().map(said).collect()
    }

    #[test]
    fn each_kind_of_report_line() {
        let first = [short(9), short(3), longer(5), short(7), longer(0xABCDEF)].concat();
        let mut changed = short(7);
        // Digit 0 is byte 30, and 7 is 37: three bits.
        changed[35] = b'7';
        let second = [longer(0xABCDEF), changed, short(1), short(5), short(9)].concat();
        let meant = "second 000000000001\n\
                     first 000000000003\n\
                     both 000000000005\n\
                     both 000000000007 35 3\n";
        assert_eq!(compared(&first, &second).as_deref(), Ok(meant));
        let meant = "first 000000000001\n\
                     second 000000000003\n\
                     both 000000000005\n\
                     both 000000000007 35 3\n";
        assert_eq!(compared(&second, &first).as_deref(), Ok(meant));
        assert_eq!(compared(&first, &first).as_deref(), Ok(""));
    }

    #[test]
    fn the_sample_files() {
        let before = include_bytes!("../../samples/before.txt");
        let after = include_bytes!("../../samples/after.txt");
        let meant = include_str!("../../samples/changes.report");
        assert_eq!(compared(before, after).as_deref(), Ok(meant));
    }

    #[test]
    fn files_without_a_line() {
        assert_eq!(compared(b"", b"").as_deref(), Ok(""));
        let meant = "first 0fffffffffff\n";
        assert_eq!(compared(&short((1 << 44) - 1), b"").as_deref(), Ok(meant));
        let meant = "second 000000000000\n";
        assert_eq!(compared(b"", &short(0)).as_deref(), Ok(meant));
    }

    /// Equal lengths that are made up of other parts, and the most bits that can differ.
    #[test]
    fn pairs_of_equal_length() {
        let first = text(5, &[0x99; 8], 0, &[0x99; 8]);
        let second = text(5, &[], 8, &[0xFF; 16]);
        // Label length 08 against 00: byte 38 and 30. Message length 0000 against 0008. Then 32 digits, 9
        // against f: bytes 39 and 66, six bits each.
        let meant = "both 000000000005 15 194\n";
        assert_eq!(compared(&first, &second).as_deref(), Ok(meant));
        let first = text(5, &[0x99; 32], 1_024, &[0x99; 1_032]);
        let second = text(5, &[0xFF; 32], 1_024, &[0xFF; 1_032]);
        let meant = "both 000000000005 20 12768\n";
        assert_eq!(compared(&first, &second).as_deref(), Ok(meant));
        assert_eq!(defined_report(&first, &second), meant);
    }

    #[test]
    fn reports_by_definition() {
        let mut pairs = Pairs::new(1);
        for count in (0..200).chain([1_000, LINES_MAX]) {
            let (first, second) = pairs.pair(count);
            let meant = defined_report(&first, &second);
            assert_eq!(compared(&first, &second), Ok(meant));
        }
    }

    #[test]
    fn limits() {
        let full = all_of(0..1_024);
        assert_eq!(fault(&full), None);
        assert_eq!(fault(&all_of(0..1_025)), Some(Fault::TooLarge));
        assert_eq!(fault(&[&full[..], b"0"].concat()), Some(Fault::TooLarge));
        assert_eq!(fault(&[b'\n'; 1_025]), Some(Fault::TooLarge));
        let first = Some(Fault::NotALine { line: 1, place: 0 });
        assert_eq!(fault(&[b'\n'; 1_024]), first);
        assert_eq!(fault(&[b' '; BYTES_MAX]), first);
        assert_eq!(fault(&[b' '; BYTES_MAX + 1]), Some(Fault::TooLarge));

        let mut pairs = Pairs::new(2);
        for lines in [32, 500, 1_024] {
            assert_eq!(fault(&pairs.sized(lines, BYTES_MAX)), None);
            let larger = pairs.sized(lines - 1, BYTES_MAX + 1);
            assert_eq!(fault(&larger), Some(Fault::TooLarge));
        }
        let report = compared(&full, &all_of(1_024..2_048));
        assert_eq!(report.map(|report| report.len()), Ok(LONGEST_REPORT));
        assert_eq!(LONGEST_REPORT, 39_936);
    }

    #[test]
    fn lines_that_are_not_good() {
        let good = all_of(0..5);
        for at in 0..good.len() {
            let (line, place) = (at / 37 + 1, at % 37);
            let meant = Some(Fault::NotALine { line, place });
            let mut bad = good.clone();
            bad[at] = b' ';
            assert_eq!(fault(&bad), meant);
            if place > 0 {
                assert_eq!(fault(&good[..at]), meant);
            }
        }
        let returned = [&good[..36], b"\r", &good[36..]].concat();
        let meant = Fault::NotALine { line: 1, place: 36 };
        assert_eq!(fault(&returned), Some(meant));
        let empty = [&good[..74], b"\n", &good[74..]].concat();
        let meant = Fault::NotALine { line: 3, place: 0 };
        assert_eq!(fault(&empty), Some(meant));
    }

    #[test]
    fn repeated_serials() {
        let repeated = |line| Some(Fault::RepeatedSerial { line });
        assert_eq!(fault(&all_of([5, 5])), repeated(2));
        assert_eq!(fault(&all_of([5, 9, 1, 9, 5, 1])), repeated(4));
        assert_eq!(fault(&all_of([9, 5, 1, 5, 5, 5])), repeated(4));
        assert_eq!(fault(&[short(5), longer(5)].concat()), repeated(2));
        assert_eq!(fault(&all_of((0..1_023).chain([0]))), repeated(1_024));
    }

    /// Every file is refused for the first of its faults, and the first file before the second.
    #[test]
    fn refusals_come_in_order() {
        let good = short(5);
        let repeated = all_of([5, 5]);
        let bad = [&repeated[..], b"01\n"].concat();
        let large = [&bad[..], &[b'\n'; 1_025]].concat();
        let faults = [
            (&large, Fault::TooLarge),
            (&bad, Fault::NotALine { line: 3, place: 2 }),
            (&repeated, Fault::RepeatedSerial { line: 2 }),
        ];
        let refused = |first: &[u8], second: &[u8], room| {
            let mut out = vec![0xA5; room];
            let refusal = compare(first, second, &mut out).err();
            assert_eq!(out, vec![0xA5; room]);
            refusal
        };
        for (file, fault) in faults {
            for room in [0, 100] {
                let meant = Some(Refusal::File(File::First, fault));
                assert_eq!(refused(file, &good, room), meant);
                for (other, _) in faults {
                    assert_eq!(refused(file, other, room), meant);
                }
                let meant = Some(Refusal::File(File::Second, fault));
                assert_eq!(refused(&good, file, room), meant);
            }
        }
        for room in 0..19 {
            assert_eq!(refused(&good, b"", room), Some(Refusal::Room));
        }
        assert_eq!(compare(&good, b"", &mut [0; 19]), Ok(19));
        assert_eq!(compare(&good, &good, &mut []), Ok(0));
    }
}
