//! A checker under abuse: random bytes, input cut at every place, and inputs and outputs that fail.

use crate::feed::{Feed, Output};
use crate::files::{key_line, Lines};
use crate::{Meant, Tries};
use second::line::END;
use second::listing;
use second::rng::Rng;
use std::io;

/// What is said on standard error of an input or an output that fails. The exit status does not say it.
const READING_FAILED: &[u8] = b"checker: reading failed\n";
const WRITING_FAILED: &[u8] = b"checker: writing failed\n";

/// Random bytes: as they are, behind a key line, and there with bytes of lines alone.
fn random_bytes(tries: &mut Tries) -> io::Result<()> {
    for seed in 100..103 {
        let mut rng = Rng::new(seed);
        let key = key_line(Lines::new(seed).key);
        for size in [1, 2, 32, 33, 34, 100, 2_149, 2_150, 65_536, 65_537, 300_000] {
            let any = rng.bytes(size);
            let text: Vec<u8> = (0..size)
                .map(|_| rng.one_of(b"00112233456789abcdef\r\n A"))
                .collect();
            tries.file("random bytes", &any)?;
            tries.file("a key, random bytes", &[&key, &any[..]].concat())?;
            tries.file("a key, random text", &[&key, &text[..]].concat())?;
        }
    }
    Ok(())
}

/// Every cut of a short file: a key line, a good line, one that does not open, one that is no line, and
/// a piece without an end. As a file, and byte by byte.
fn every_cut(tries: &mut Tries) -> io::Result<()> {
    let mut lines = Lines::new(103);
    let good = lines.sized(0, 0);
    let mut changed = lines.sized(0, 0);
    changed[35] ^= 1;
    let file = [&key_line(lines.key), &good[..], &changed, b"01\n", b"0100"].concat();
    for cut in 0..=file.len() {
        let file = &file[..cut];
        let meant = listing::listing(file);
        tries.fed("every cut", file, Feed::File, &meant)?;
        tries.fed("every cut", file, Feed::OneByOne(1), &meant)?;
    }
    Ok(())
}

/// A few inputs, from nothing to one whose listing no pipe holds.
fn inputs() -> Vec<Vec<u8>> {
    let key = key_line(Lines::new(104).key);
    let long = [&key[..], &[END; 50_000]].concat();
    let short = Lines::new(104).file(3);
    vec![vec![], b"no key\n".to_vec(), key, short, long]
}

/// Output that fails: the checker says so, once, and ends.
fn failing_outputs(tries: &mut Tries) -> io::Result<()> {
    for input in inputs() {
        for output in [Output::Full, Output::Closed] {
            for feed in [Feed::File, Feed::Pipe(4_096)] {
                tries.ends(&input, feed, output, Meant::saying(WRITING_FAILED))?;
            }
        }
    }
    Ok(())
}

/// A reader that leaves before the checker has written all: the checker says that writing failed, since
/// a program of rt begins with SIGPIPE ignored. What was read until then is the listing.
fn leaving_readers(tries: &mut Tries) -> io::Result<()> {
    let input = inputs().pop().expect("a long input");
    let listing = listing::listing(&input);
    for feed in [Feed::File, Feed::Pipe(4_096), Feed::OneByOne(4_096)] {
        for count in [0, 1, 100, 65_536, 70_000] {
            let meant = Meant {
                printed: &listing[..count],
                said: WRITING_FAILED,
            };
            tries.ends(&input, feed, Output::Left(count), meant)?;
            tries.ends(&input, feed, Output::LeftIgnored(count), meant)?;
        }
    }
    Ok(())
}

/// Input that cannot be read: the checker says so, and prints nothing.
fn failing_inputs(tries: &mut Tries) -> io::Result<()> {
    for feed in [Feed::Closed, Feed::Folder] {
        for output in [Output::Read, Output::Full, Output::Closed] {
            tries.ends(&[], feed, output, Meant::saying(READING_FAILED))?;
        }
    }
    Ok(())
}

pub fn abuse(tries: &mut Tries) -> io::Result<()> {
    random_bytes(tries)?;
    every_cut(tries)?;
    failing_outputs(tries)?;
    leaving_readers(tries)?;
    failing_inputs(tries)
}
