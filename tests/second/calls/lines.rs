//! The line calls: `kk_read_line`, `kk_write_line`, `kk_open_line`.

use crate::calls::frames::{outcome, refused, SealCall};
use crate::ffi;
use crate::frame::Refusal;
use crate::harness::{Call, Given, Outcome};
use crate::line::{self, Fields, NotALine};
use crate::qarma::Key;
use std::fmt;

/// The bytes of what reading answers: five words.
pub const READ: usize = 40;

/// So many bytes of a line are shown.
const SHOWN: usize = 160;

/// Bytes that are handed in as a line, shown as text.
#[derive(Clone, Copy)]
pub struct Line<'a>(pub &'a [u8]);

impl fmt::Debug for Line<'_> {
    fn fmt(&self, f: &mut fmt::Formatter) -> fmt::Result {
        let length = self.0.len();
        let shown = self.0[..length.min(SHOWN)].escape_ascii();
        let more = if length > SHOWN { ".." } else { "" };
        write!(f, "\"{shown}\"{more} of length {length:x}")
    }
}

#[derive(Clone, Copy, Debug)]
pub struct ReadCall<'a> {
    pub line: Line<'a>,
}

impl Call for ReadCall<'_> {
    fn given(&self) -> Given<'_> {
        Given {
            function: 7,
            numbers: Vec::new(),
            slices: vec![self.line.0],
        }
    }

    fn run(&self, out: &mut [u8]) -> u64 {
        ffi::read_line(self.line.0, out)
    }

    fn meant(&self, room: usize) -> Outcome {
        match line::read(self.line.0) {
            Err(NotALine { place }) => Outcome::not_a_line(place),
            Ok(_) if room < READ => refused(Refusal::Room),
            Ok(fields) => wrote_fields(fields),
        }
    }
}

/// The outcome of a reading that answers these fields.
pub fn wrote_fields(fields: Fields) -> Outcome {
    let Fields {
        serial,
        label_length,
        message_length,
        label_place,
        sealed_place,
    } = fields;
    let lengths_and_places = [label_length, message_length, label_place, sealed_place];
    let words = [serial]
        .into_iter()
        .chain(lengths_and_places.map(|number| number as u64));
    Outcome::wrote(words.flat_map(u64::to_be_bytes).collect())
}

/// The frame whose line is to be written.
#[derive(Clone, Copy, Debug)]
pub struct WriteCall<'a> {
    pub frame: SealCall<'a>,
}

impl WriteCall<'_> {
    /// How many bytes the line has.
    pub fn need(&self) -> usize {
        line::length(self.frame.label.len(), self.frame.message.len())
    }
}

impl Call for WriteCall<'_> {
    fn given(&self) -> Given<'_> {
        Given {
            function: 8,
            ..self.frame.given()
        }
    }

    fn run(&self, out: &mut [u8]) -> u64 {
        let SealCall {
            key,
            serial,
            label,
            message,
        } = self.frame;
        ffi::write_line(key, serial, label, message, out)
    }

    fn meant(&self, room: usize) -> Outcome {
        let SealCall {
            key,
            serial,
            label,
            message,
        } = self.frame;
        let mut out = vec![0; room];
        let answer = line::write(key, serial, label, message, &mut out);
        outcome(answer, out)
    }
}

#[derive(Clone, Copy, Debug)]
pub struct OpenLineCall<'a> {
    pub key: Key,
    pub line: Line<'a>,
}

impl Call for OpenLineCall<'_> {
    fn given(&self) -> Given<'_> {
        Given {
            function: 9,
            numbers: vec![self.key.w0, self.key.k0],
            slices: vec![self.line.0],
        }
    }

    fn run(&self, out: &mut [u8]) -> u64 {
        ffi::open_line(self.key, self.line.0, out)
    }

    fn meant(&self, room: usize) -> Outcome {
        let mut out = vec![0; room];
        match line::open(self.key, self.line.0, &mut out) {
            Err(line::Refusal::Line(NotALine { place })) => Outcome::not_a_line(place),
            Err(line::Refusal::Frame(refusal)) => refused(refusal),
            Ok(written) => outcome(Ok(written), out),
        }
    }
}

pub fn reading(line: &[u8]) -> ReadCall<'_> {
    ReadCall { line: Line(line) }
}

pub fn writing(frame: SealCall<'_>) -> WriteCall<'_> {
    WriteCall { frame }
}

pub fn opening(key: Key, line: &[u8]) -> OpenLineCall<'_> {
    let line = Line(line);
    OpenLineCall { key, line }
}
