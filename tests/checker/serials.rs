//! A checker on files in which serials come again, or more of them than are remembered.

use crate::feed::Feed;
use crate::files::{key_line, line, Lines};
use crate::Tries;
use second::frame::SERIAL_MAX;
use second::line::text;
use second::listing;
use second::qarma::vectors::KEY;
use second::rng::Rng;
use std::io;
use std::ops::RangeInclusive;

/// Bytes that the checker reads at a time.
const READ: usize = 65_536;

/// The shortest line with this serial.
fn short(serial: u64) -> Vec<u8> {
    line(KEY, serial, &[], &[])
}

/// The same, but that nobody sealed it.
fn unsealed(serial: u64) -> Vec<u8> {
    text(serial, &[], 0, &[0; 8])
}

/// The same, without its last digit.
fn cut(serial: u64) -> Vec<u8> {
    [&short(serial)[..35], b"\n"].concat()
}

/// The lines with these serials, one behind the other.
fn all_of(serials: &[u64]) -> Vec<u8> {
    serials.iter().flat_map(|&serial| short(serial)).collect()
}

/// What is said of the lines with these numbers, if it is the same of all.
fn each(numbers: RangeInclusive<usize>, said: &str) -> String {
    numbers.map(|number| format!("{number} {said}\n")).collect()
}

/// By each of these feeds, the checker prints what is meant of these lines; so does the second program.
fn fed(
    tries: &mut Tries,
    name: &str,
    lines: &[&[u8]],
    feeds: &[Feed],
    meant: &str,
) -> io::Result<()> {
    let file = [&key_line(KEY), &lines.concat()[..]].concat();
    let meant = meant.as_bytes();
    assert!(
        listing::listing(&file) == meant,
        "{name}: the second program lists otherwise"
    );
    for &feed in feeds {
        tries.fed(name, &file, feed, meant)?;
    }
    Ok(())
}

/// The same as a file.
fn file(tries: &mut Tries, name: &str, lines: &[&[u8]], meant: &str) -> io::Result<()> {
    fed(tries, name, lines, &[Feed::File], meant)
}

/// A serial comes again, in the same line or in another.
fn repeats(tries: &mut Tries) -> io::Result<()> {
    let (first, other) = (short(5), line(KEY, 5, b"label", b"a message"));
    let meant = "1 opened 0\n2 refused 8\nlines 2 opened 1 refused 1\n";
    file(tries, "a line twice", &[&first, &first], meant)?;
    file(tries, "a serial twice", &[&first, &other], meant)?;
    let meant = "1 opened 9\n2 refused 8\n3 refused 8\nlines 3 opened 1 refused 2\n";
    file(tries, "a serial again", &[&other, &first, &other], meant)
}

/// Lines that are refused use up nothing. In pieces that are as long as a line, or shorter or longer, a
/// serial's first line and the next fall on every side of a border.
fn refused_lines(tries: &mut Tries) -> io::Result<()> {
    let lines: [&[u8]; 9] = [
        &short(5),
        &short(6),
        &short(5),
        &cut(7),
        &unsealed(7),
        &short(7),
        &short(7),
        &short(6),
        &short(5)[..36],
    ];
    let feeds = [
        Feed::File,
        Feed::Pipe(1),
        Feed::Pipe(37),
        Feed::OneByOne(1),
        Feed::OneByOne(7),
        Feed::OneByOne(33),
        Feed::OneByOne(36),
        Feed::OneByOne(37),
        Feed::OneByOne(38),
        Feed::OneByOne(74),
    ];
    let meant = "1 opened 0\n\
                 2 opened 0\n\
                 3 refused 8\n\
                 4 refused 7 at 35\n\
                 5 refused 6\n\
                 6 opened 0\n\
                 7 refused 8\n\
                 8 refused 8\n\
                 9 refused 7 at 36\n\
                 lines 9 opened 3 refused 6\n";
    fed(tries, "refused lines", &lines, &feeds, meant)
}

/// The second read begins at each place of a line and of its repeat, and behind them.
fn borders(tries: &mut Tries) -> io::Result<()> {
    let line = short(5);
    let meant = "1 refused 7 at 0\n2 opened 0\n3 refused 8\nlines 3 opened 1 refused 2\n";
    for at in 0..=2 * line.len() {
        let mut long = vec![b' '; READ - 33 - at];
        *long.last_mut().expect("many bytes") = b'\n';
        file(tries, "a border", &[&long, &line, &line], meant)?;
    }
    Ok(())
}

/// The least serial, the greatest, and another; and those that differ from it in one bit.
fn bits(tries: &mut Tries) -> io::Result<()> {
    let (opened, repeated) = (each(1..=45, "opened 0"), each(46..=90, "refused 8"));
    let meant = format!("{opened}{repeated}lines 90 opened 45 refused 45\n");
    for serial in [0, SERIAL_MAX, 0x123_4567_89AB] {
        let mut serials = vec![serial];
        serials.extend((0..44).map(|bit| serial ^ 1 << bit));
        let first = all_of(&serials);
        serials.reverse();
        file(tries, "one bit", &[&first, &all_of(&serials)], &meant)?;
    }
    Ok(())
}

/// About as many serials as are remembered, and what comes after them.
fn full_list(tries: &mut Tries) -> io::Result<()> {
    let serials: Vec<u64> = (1..=4_097).collect();
    let opened = |count| each(1..=count, "opened 0");
    let name = "about a full list";
    let meant = opened(4_095) + "lines 4095 opened 4095 refused 0\n";
    file(tries, name, &[&all_of(&serials[..4_095])], &meant)?;
    let meant = opened(4_096) + "lines 4096 opened 4096 refused 0\n";
    file(tries, name, &[&all_of(&serials[..4_096])], &meant)?;
    let meant = opened(4_096) + "4097 refused 9\nlines 4097 opened 4096 refused 1\n";
    file(tries, name, &[&all_of(&serials)], &meant)?;

    let lines: [&[u8]; 12] = [
        &short(1),
        &all_of(&serials[..4_095]),
        &unsealed(4_096),
        &short(4_096),
        &short(1),
        &short(4_097),
        &short(4_097),
        &unsealed(4_097),
        &unsealed(1),
        &cut(4_097),
        &short(4_096),
        &short(4_098),
    ];
    let feeds = [
        Feed::File,
        Feed::Pipe(4_096),
        Feed::OneByOne(37),
        Feed::OneByOne(4_096),
        Feed::OneByOne(READ),
    ];
    let meant = "1 opened 0\n2 refused 8\n".to_string()
        + &each(3..=4_096, "opened 0")
        + "4097 refused 6\n\
           4098 opened 0\n\
           4099 refused 8\n\
           4100 refused 9\n\
           4101 refused 9\n\
           4102 refused 6\n\
           4103 refused 6\n\
           4104 refused 7 at 35\n\
           4105 refused 8\n\
           4106 refused 9\n\
           lines 4106 opened 4096 refused 10\n";
    fed(tries, "a full list", &lines, &feeds, &meant)
}

/// As many serials as are remembered, rising, falling and shuffled: all of them, then all again in
/// another order; and a thousand, each with one of those so far behind it.
fn orders(tries: &mut Tries) -> io::Result<()> {
    let mut rng = Rng::new(200);
    let mut rising: Vec<u64> = (0..4_096).map(|_| rng.word() & SERIAL_MAX).collect();
    rising.sort_unstable();
    let falling: Vec<u64> = rising.iter().rev().copied().collect();
    let mut shuffled = rising.clone();
    rng.shuffle(&mut shuffled);

    let (opened, repeated) = (
        each(1..=4_096, "opened 0"),
        each(4_097..=8_192, "refused 8"),
    );
    let again = format!("{opened}{repeated}lines 8192 opened 4096 refused 4096\n");
    let pairs = (1..=1_000).map(|i| format!("{} opened 0\n{} refused 8\n", 2 * i - 1, 2 * i));
    let between = pairs.collect::<String>() + "lines 2000 opened 1000 refused 1000\n";
    let feeds = [Feed::File, Feed::Pipe(7), Feed::OneByOne(READ)];
    for (name, order, other) in [
        ("rising", &rising, &falling),
        ("falling", &falling, &shuffled),
        ("shuffled", &shuffled, &rising),
    ] {
        let lines = [&all_of(order)[..], &all_of(other)];
        fed(tries, name, &lines, &feeds, &again)?;
        let mixed = (0..1_000).flat_map(|i| [order[i], order[rng.below(i + 1)]]);
        let mixed: Vec<u64> = mixed.collect();
        file(tries, name, &[&all_of(&mixed)], &between)?;
    }
    Ok(())
}

/// Random lines, good and damaged, under so many serials. Under the most of them the list is full
/// before the file ends.
fn random_serials(tries: &mut Tries) -> io::Result<()> {
    let mut lines = Lines::new(201);
    let first = lines.serial;
    for (count, serials) in [(1_000, 10), (5_000, 3_000), (10_000, 8_000)] {
        let mut file = lines.key_line();
        for _ in 0..count {
            lines.serial = first + lines.below(serials) as u64;
            file.extend(lines.mixed());
        }
        tries.file("random serials", &file)?;
    }
    Ok(())
}

pub fn serials(tries: &mut Tries) -> io::Result<()> {
    repeats(tries)?;
    refused_lines(tries)?;
    borders(tries)?;
    bits(tries)?;
    full_list(tries)?;
    orders(tries)?;
    random_serials(tries)
}
