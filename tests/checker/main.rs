//! Tries a checker on whole files, and makes files for it and for comparing two of them.
//!
//!     checker try COMMAND [WORD..]  runs a checker, compares its listings with the second program's
//!     checker lines KIND COUNT      prints a file of lines, by the kinds that `print_lines` has
//!     checker pair SEED COUNT FIRST SECOND
//!                                   writes two files of good lines without a key line, one of so many
//!                                   lines, the other of as many or fewer
//!     checker sized LINES BYTES     prints such a file of so many lines and bytes
//!     checker cards|before|after    prints a sample file

mod abuse;
mod feed;
mod files;
mod serials;

use feed::{Checker, Feed, Output, Ran};
use files::{key_line, Lines};
use second::line::{DIGITS, END, LONGEST};
use second::listing::{self, KEY_REFUSED};
use second::pairs::Pairs;
use second::qarma::{vectors, Key};
use std::env;
use std::fs;
use std::io::{self, Write};
use std::process::ExitCode;
use std::str::FromStr;

/// The files of many lines, and the lines of each: the serials of all that open are remembered.
const FILES: usize = 10;
const MANY: usize = 5_000;

/// The lines of the long file, in which more open than are remembered.
const LONG: usize = 20_000;

/// How many differences are printed.
const PRINTED: u64 = 10;

/// Bytes that no key line has before its end.
const NO_DIGITS: &[u8] = b"/:`gAFGZ \t\r\0x-+._\x7F\x80\xB0\xFF";

/// The sample file and its listing, as they are kept.
const CARDS: &[u8] = include_bytes!("../../samples/cards.txt");
const CARDS_LISTING: &[u8] = include_bytes!("../../samples/cards.listing");
const BEFORE: &[u8] = include_bytes!("../../samples/before.txt");
const AFTER: &[u8] = include_bytes!("../../samples/after.txt");

/// What a checker is meant to leave behind. It is not ended by a signal, and its status is 0.
#[derive(Clone, Copy)]
struct Meant<'a> {
    printed: &'a [u8],
    said: &'a [u8],
}

impl<'a> Meant<'a> {
    /// This on standard output, and nothing on standard error.
    fn printing(printed: &'a [u8]) -> Self {
        Self { printed, said: b"" }
    }

    /// This on standard error, and nothing on standard output.
    fn saying(said: &'a [u8]) -> Self {
        Self { printed: b"", said }
    }

    fn agrees(&self, ran: &Ran) -> bool {
        ran.status.success() && ran.printed == self.printed && ran.said == self.said
    }
}

/// Counts the files that a checker was tried on, and its runs on an input or an output that fails, and
/// prints the first differences.
struct Tries {
    checker: Checker,
    files: u64,
    failing: u64,
    differences: u64,
}

impl Tries {
    /// The checker prints what the second program does, and ends with status 0.
    fn file(&mut self, name: &str, input: &[u8]) -> io::Result<()> {
        self.fed(name, input, Feed::File, &listing::listing(input))
    }

    /// The same for a key line, then these lines.
    fn lines(&mut self, name: &str, key: Key, lines: &[&[u8]]) -> io::Result<()> {
        self.file(name, &[&key_line(key), &lines.concat()[..]].concat())
    }

    /// The checker refuses the key and prints nothing more.
    fn bad_key(&mut self, name: &str, input: &[u8]) -> io::Result<()> {
        self.fed(name, input, Feed::File, KEY_REFUSED)
    }

    fn fed(&mut self, name: &str, input: &[u8], feed: Feed, meant: &[u8]) -> io::Result<()> {
        self.files += 1;
        self.run(name, input, feed, Output::Read, Meant::printing(meant))
    }

    /// On an input or to an output that fails, the checker ends as it is meant to.
    fn ends(&mut self, input: &[u8], feed: Feed, output: Output, meant: Meant) -> io::Result<()> {
        self.failing += 1;
        self.run("failing", input, feed, output, meant)
    }

    fn run(
        &mut self,
        name: &str,
        input: &[u8],
        feed: Feed,
        output: Output,
        meant: Meant,
    ) -> io::Result<()> {
        let run = format!("{name}, {} bytes, {feed:?}, {output:?}", input.len());
        let ran = match self.checker.run(input, feed, output) {
            Err(error) => return Err(io::Error::new(error.kind(), format!("{run}: {error}"))),
            Ok(ran) => ran,
        };
        if !meant.agrees(&ran) {
            self.differences += 1;
            if self.differences <= PRINTED {
                println!("difference: {run}: {}", ran.status);
                println!("  said {:?}", String::from_utf8_lossy(&ran.said));
                show(&ran.printed, meant.printed);
            }
        }
        Ok(())
    }

    fn finish(self) -> ExitCode {
        let Self {
            files,
            failing,
            differences,
            ..
        } = self;
        println!("checker: {files} files, {failing} runs on failing inputs and outputs");
        if differences == 0 {
            println!("checker: all as by the second program and as meant");
            ExitCode::SUCCESS
        } else {
            println!("checker: {differences} otherwise");
            ExitCode::FAILURE
        }
    }
}

/// Prints the first line in which two listings differ.
fn show(printed: &[u8], meant: &[u8]) {
    let lines = |listing: &[u8]| -> Vec<String> {
        let lines = listing.split_inclusive(|&byte| byte == END);
        lines.map(|line| line.escape_ascii().to_string()).collect()
    };
    let (printed, meant) = (lines(printed), lines(meant));
    let longer = printed.len().max(meant.len());
    if let Some(first) = (0..longer).find(|&i| printed.get(i) != meant.get(i)) {
        let line = |lines: &[String]| lines.get(first).cloned();
        println!("  line {} of the listing", first + 1);
        println!("  printed {:?}", line(&printed));
        println!("  meant   {:?}", line(&meant));
    }
}

/// What document 01 gives, and the sample file.
fn examples(tries: &mut Tries) -> io::Result<()> {
    let input = format!("{}\n01\n", "0".repeat(32));
    let meant = b"1 refused 7 at 2\nlines 1 opened 0 refused 1\n";
    for feed in [
        Feed::File,
        Feed::Pipe(64),
        Feed::OneByOne(1),
        Feed::OneByOne(3),
    ] {
        tries.fed("the example", input.as_bytes(), feed, meant)?;
    }
    assert_eq!(CARDS, files::cards(), "samples/cards.txt is an old one");
    assert_eq!(BEFORE, files::before(), "samples/before.txt is an old one");
    assert_eq!(AFTER, files::after(), "samples/after.txt is an old one");
    tries.fed("samples/cards.txt", CARDS, Feed::File, CARDS_LISTING)
}

fn bad_keys(tries: &mut Tries) -> io::Result<()> {
    let mut lines = Lines::new(1);
    let key = lines.key_line();
    let digits = &key[..32];
    let good = lines.good();
    let long = vec![b'0'; 1_000_000];

    for length in (0..=31).chain([33, 34, 48, 64, 65, 288]) {
        let some = digits.repeat(9);
        let bad = [&some[..length], b"\n", &good].concat();
        tries.bad_key("so many digits", &bad)?;
    }
    for length in [0, 1, 16, 31, 32, 33, 34] {
        let unended = &digits.repeat(2)[..length];
        tries.bad_key("no 0A", unended)?;
        tries.bad_key("no 0A, then a line", &[unended, &good].concat())?;
    }
    for at in 0..32 {
        let mut bad = [&key[..], &good].concat();
        bad[at] = NO_DIGITS[at % NO_DIGITS.len()];
        tries.bad_key("a byte that is no digit", &bad)?;
    }
    for (i, &byte) in NO_DIGITS.iter().enumerate() {
        let mut bad = [&key[..], &good].concat();
        bad[(i + 16) % 32] = byte;
        tries.bad_key("a byte that is no digit", &bad)?;
        let after = [digits, &[byte], b"\n", &good].concat();
        tries.bad_key("a byte more", &after)?;
    }
    for (name, bad) in [
        ("nothing", vec![]),
        ("an empty line", b"\n".to_vec()),
        ("an empty line before", [b"\n", &key[..], &good].concat()),
        ("capitals", key.to_ascii_uppercase()),
        ("a line for a key", good.clone()),
        ("0D, no 0A", [digits, b"\r"].concat()),
        ("a mark before", [b"\xEF\xBB\xBF", &key[..]].concat()),
        ("0x before", [b"0x", &key[..]].concat()),
        (
            "a blank between",
            [&digits[..16], b" ", &key[16..]].concat(),
        ),
        (
            "two lines",
            [&digits[..16], b"\n", &key[16..], &good].concat(),
        ),
        ("a million digits", [&long[..], b"\n", &good].concat()),
        ("a million digits, no 0A", long.clone()),
        ("a million zeros", vec![0; 1_000_000]),
        ("a million ends", vec![END; 1_000_000]),
    ] {
        tries.bad_key(name, &bad)?;
        tries.fed(name, &bad, Feed::Pipe(1 << 20), KEY_REFUSED)?;
        let begin = &bad[..bad.len().min(100)];
        tries.fed(name, begin, Feed::OneByOne(1), KEY_REFUSED)?;
    }
    Ok(())
}

fn good_keys(tries: &mut Tries) -> io::Result<()> {
    let ones = u64::MAX;
    for (w0, k0) in [
        (0, 0),
        (ones, ones),
        (0, 1),
        (1, 0),
        (1 << 63, 0),
        (0, 1 << 63),
        (0x0123456789ABCDEF, 0xFEDCBA9876543210),
    ] {
        let key = Key { w0, k0 };
        let right = |serial| files::line(key, serial, b"label", b"a message");
        let other = Key { w0: k0, k0: !w0 };
        let wrong = files::line(other, 8, b"label", b"a message");
        tries.lines("a key", key, &[&right(7), &wrong, &right(8)])?;
    }
    Ok(())
}

/// Few lines, or pieces of them.
fn short_files(tries: &mut Tries) -> io::Result<()> {
    let mut lines = Lines::new(2);
    let key = lines.key;
    let (first, second) = (lines.sized(0, 0), lines.sized(2, 1));
    let longest = lines.sized(32, 1_024);
    let empty: &[u8] = b"\n";

    tries.lines("no lines", key, &[])?;
    let meant = b"lines 0 opened 0 refused 0\n";
    tries.fed("no lines", &key_line(key), Feed::Pipe(64), meant)?;
    for count in [1, 2, 9, 10, 11, 1_000, 100_001] {
        tries.lines("empty lines", key, &[&empty.repeat(count)])?;
    }
    tries.lines("one line", key, &[&first])?;
    tries.lines("an empty line between", key, &[&first, empty, &second])?;
    tries.lines(
        "a key line between",
        key,
        &[&first, &key_line(key), &second],
    )?;
    for cut in 1..=second.len() {
        tries.lines("an unended piece", key, &[&first, &second[..cut]])?;
    }
    for piece in [
        &b" "[..],
        b"\r",
        b"\0",
        b"0",
        b"01",
        b"\xFF",
        &first[..36],
        &longest[..LONGEST - 1],
    ] {
        tries.lines("an unended piece alone", key, &[piece])?;
        tries.lines(
            "an unended piece after an end",
            key,
            &[&first, empty, piece],
        )?;
    }
    for end in [
        &b"\r\n"[..],
        b"\n\r",
        b"\r",
        b" \n",
        b"\0\n",
        b"\n\0",
        b"\n\n\n",
    ] {
        let lines = [&first[..36], end, &second, &longest[..LONGEST - 1], end].concat();
        tries.lines("other ends", key, &[&lines])?;
    }
    let pieces: Vec<u8> = (0..=255).flat_map(|byte| [byte, END]).collect();
    tries.lines("each byte as a line", key, &[&pieces, &first])?;
    let all: Vec<u8> = (0..=255).collect();
    tries.lines("each byte", key, &[&all, &first])
}

/// Every cut of a line, and every byte of it replaced by each value, each as a line of one file; some
/// of the bytes are ends of lines.
fn damaged_lines(tries: &mut Tries) -> io::Result<()> {
    let mut lines = Lines::new(3);
    let key = lines.key;
    for (label, message) in [(0, 0), (3, 5), (32, 1_024)] {
        let line = lines.sized(label, message);
        let cuts = (0..line.len()).map(|cut| [&line[..cut], b"\n"].concat());
        tries.lines("every cut", key, &[&cuts.collect::<Vec<_>>().concat()])?;
    }
    let line = lines.sized(3, 5);
    let places = (0..line.len()).flat_map(|at| (0..=255).map(move |byte| (at, byte)));
    let replaced = places.clone().flat_map(|(at, byte)| {
        let mut line = line.clone();
        line[at] = byte;
        line
    });
    tries.lines("every byte replaced", key, &[&replaced.collect::<Vec<_>>()])?;
    let inserted = places.flat_map(|(at, byte)| [&line[..at], &[byte], &line[at..]].concat());
    tries.lines("every byte inserted", key, &[&inserted.collect::<Vec<_>>()])
}

/// Every message length, with labels of every length.
fn lengths(tries: &mut Tries) -> io::Result<()> {
    let mut lines = Lines::new(4);
    let each: Vec<u8> = (0..=1_024)
        .flat_map(|message| lines.sized(message % 33, message))
        .collect();
    tries.lines("every length", lines.key, &[&each])
}

/// Lines that are too long, between good ones and at the end of the file.
fn long_lines(tries: &mut Tries) -> io::Result<()> {
    let mut lines = Lines::new(5);
    let key = lines.key;
    let (good, longest, last) = (lines.good(), lines.sized(32, 1_024), lines.good());
    let unended = &longest[..LONGEST - 1];

    let sizes = (LONGEST - 2..=LONGEST + 3)
        .chain([4_095, 4_096, 4_097, 8_191, 8_192, 8_193])
        .chain([65_535, 65_536, 65_537, 131_072]);
    for size in sizes {
        for byte in [b'0', b' '] {
            let mut long = unended[..size.min(LONGEST - 1)].to_vec();
            long.resize(size, byte);
            let name = "a line of about the longest length, or more";
            tries.lines(name, key, &[&good, &long, b"\n", &longest, &last, &long])?;
        }
    }
    for byte in [b'0', b'f', b' ', 0, 0xFF] {
        for begin in [&b""[..], b"01", &good[..good.len() - 1], unended] {
            let mut long = begin.to_vec();
            long.resize(1_000_000, byte);
            tries.lines(
                "a million bytes",
                key,
                &[&good, &long, b"\n", &longest, &long],
            )?;
        }
    }
    let long = vec![b'0'; 1_000_000];
    let input = [&key_line(key), &good[..], &long, b"\n", &last, &long].concat();
    let meant = listing::listing(&input);
    tries.fed("a million bytes", &input, Feed::OneByOne(4_096), &meant)
}

/// A file by each of these feeds. Its total is printed.
fn by_feeds(tries: &mut Tries, name: &str, file: &[u8], feeds: &[Feed]) -> io::Result<()> {
    let meant = listing::listing(file);
    let total = meant.split_inclusive(|&byte| byte == END).next_back();
    let total = String::from_utf8_lossy(total.unwrap_or_default());
    print!("{name}: {} bytes, {total}", file.len());
    for &feed in feeds {
        tries.fed(name, file, feed, &meant)?;
    }
    Ok(())
}

/// Many lines, by every feed; the same with ends lost and ends more; and under another key. One by
/// one, a piece costs two turns of the machine: small pieces come so from a shorter file.
fn many_lines(tries: &mut Tries) -> io::Result<()> {
    let mut lines = Lines::new(6);
    let feeds = [
        Feed::File,
        Feed::Pipe(1),
        Feed::Pipe(7),
        Feed::Pipe(4_096),
        Feed::OneByOne(4_096),
        Feed::OneByOne(65_536),
    ];
    for _ in 0..FILES {
        by_feeds(tries, "many lines", &lines.file(MANY), &feeds)?;
    }
    let feeds = [Feed::File, Feed::Pipe(4_096)];
    by_feeds(tries, "a long file", &lines.file(LONG), &feeds)?;

    let shorter = lines.file(MANY / 5);
    let meant = listing::listing(&shorter);
    for pieces in [7, 32, 33, 34, 100] {
        tries.fed("fewer lines", &shorter, Feed::OneByOne(pieces), &meant)?;
    }
    let few = lines.file(MANY / 20);
    tries.fed(
        "few lines",
        &few,
        Feed::OneByOne(1),
        &listing::listing(&few),
    )?;

    let mut other = shorter.clone();
    other[..33].copy_from_slice(&key_line(vectors::KEY));
    tries.file("another key", &other)?;

    let mut ends = shorter;
    for _ in 0..400 {
        let at = 33 + lines.below(ends.len() - 33);
        ends[at] = END;
        let at = 33 + lines.below(ends.len() - 33);
        if let Some(end) = ends[at..].iter().position(|&byte| byte == END) {
            ends[at + end] = DIGITS[lines.below(16)];
        }
    }
    tries.file("ends lost and more", &ends)
}

fn try_checker(checker: Checker) -> io::Result<ExitCode> {
    let mut tries = Tries {
        checker,
        files: 0,
        failing: 0,
        differences: 0,
    };
    examples(&mut tries)?;
    bad_keys(&mut tries)?;
    good_keys(&mut tries)?;
    short_files(&mut tries)?;
    damaged_lines(&mut tries)?;
    lengths(&mut tries)?;
    long_lines(&mut tries)?;
    many_lines(&mut tries)?;
    serials::serials(&mut tries)?;
    abuse::abuse(&mut tries)?;
    Ok(tries.finish())
}

/// Prints a file of so many lines. They are good, but for `mixed`, and their serials rise from line to
/// line, but for `falling` and `shuffled`. For `twice`, all come once more.
fn print_lines(kind: &str, count: usize) -> io::Result<()> {
    let mut lines = Lines::new(8);
    let mut made: Vec<_> = (0..count)
        .map(|_| match kind {
            "mixed" => lines.mixed(),
            _ => lines.good(),
        })
        .collect();
    match kind {
        "mixed" | "different" => {}
        "twice" => made.extend_from_within(..),
        "falling" => made.reverse(),
        "shuffled" => lines.rng.shuffle(&mut made),
        _ => panic!("mixed, different, twice, falling or shuffled"),
    }
    io::stdout().write_all(&[lines.key_line(), made.concat()].concat())
}

/// Writes two files to be compared.
fn write_pair(seed: u64, count: usize, [first, second]: [&str; 2]) -> io::Result<()> {
    let (first_bytes, second_bytes) = Pairs::new(seed).pair(count);
    fs::write(first, first_bytes)?;
    fs::write(second, second_bytes)
}

fn main() -> io::Result<ExitCode> {
    fn number<T: FromStr>(word: &str) -> T {
        word.parse().ok().expect("a number")
    }
    let words: Vec<String> = env::args().skip(1).collect();
    let words: Vec<&str> = words.iter().map(String::as_str).collect();
    let print = |bytes: &[u8]| io::stdout().write_all(bytes);
    match words[..] {
        ["try", command, ref more @ ..] => {
            let more = more.iter().map(|word| word.to_string()).collect();
            return try_checker(Checker::new(command.to_string(), more));
        }
        ["lines", kind, count] => print_lines(kind, number(count))?,
        ["pair", seed, count, first, second] => {
            write_pair(number(seed), number(count), [first, second])?;
        }
        ["sized", lines, bytes] => print(&Pairs::new(9).sized(number(lines), number(bytes)))?,
        ["cards"] => print(&files::cards())?,
        ["before"] => print(&files::before())?,
        ["after"] => print(&files::after())?,
        _ => panic!("try, lines, pair, sized, cards, before or after; main.rs says more"),
    }
    Ok(ExitCode::SUCCESS)
}
