//! The frame calls: `kk_seal`, `kk_open`.

use crate::ffi;
use crate::frame::{self, Refusal};
use crate::harness::{Call, Given, Outcome, Part};
use crate::qarma::Key;

/// What there is to seal. Message and label are parts of longer memory, so that a byte read past
/// their end is not by chance a fill.
#[derive(Clone, Copy, Debug)]
pub struct SealCall<'a> {
    pub key: Key,
    pub serial: u64,
    pub label: &'a [u8],
    pub message: &'a [u8],
}

impl<'a> SealCall<'a> {
    /// How many bytes the answer has.
    pub fn need(&self) -> usize {
        frame::sealed_length(self.message.len())
    }

    /// What the second program seals, whether or not a size is exceeded.
    pub fn sealed(&self) -> Part {
        self.sealed_blocks(self.message.len(), frame::blocks(self.message))
    }

    /// The same for any blocks in the place of the message's, as a message of this length.
    pub fn sealed_blocks(&self, length: usize, blocks: impl Iterator<Item = u64>) -> Part {
        let Self {
            key, serial, label, ..
        } = *self;
        Part::new(&frame::seal_blocks(key, serial, label, length, blocks))
    }

    /// The call that opens the sealed bytes.
    pub fn opening(&self, sealed: &'a [u8]) -> OpenCall<'a> {
        OpenCall {
            key: self.key,
            serial: self.serial,
            message_length: self.message.len() as u64,
            label: self.label,
            sealed,
        }
    }
}

impl Call for SealCall<'_> {
    fn given(&self) -> Given<'_> {
        Given {
            function: 5,
            numbers: vec![self.key.w0, self.key.k0, self.serial],
            slices: vec![self.label, self.message],
        }
    }

    fn run(&self, out: &mut [u8]) -> u64 {
        ffi::seal(self.key, self.serial, self.label, self.message, out)
    }

    fn meant(&self, room: usize) -> Outcome {
        let mut out = vec![0; room];
        let answer = frame::seal(self.key, self.serial, self.label, self.message, &mut out);
        outcome(answer, out)
    }
}

/// What there is to open.
#[derive(Clone, Copy, Debug)]
pub struct OpenCall<'a> {
    pub key: Key,
    pub serial: u64,
    pub message_length: u64,
    pub label: &'a [u8],
    pub sealed: &'a [u8],
}

impl OpenCall<'_> {
    /// The same at another message length.
    pub fn at(self, length: usize) -> Self {
        Self {
            message_length: length as u64,
            ..self
        }
    }
}

impl Call for OpenCall<'_> {
    fn given(&self) -> Given<'_> {
        let Key { w0, k0 } = self.key;
        Given {
            function: 6,
            numbers: vec![w0, k0, self.serial, self.message_length],
            slices: vec![self.label, self.sealed],
        }
    }

    fn run(&self, out: &mut [u8]) -> u64 {
        let Self {
            key,
            serial,
            message_length,
            label,
            sealed,
        } = *self;
        ffi::open(key, serial, message_length, label, sealed, out)
    }

    fn meant(&self, room: usize) -> Outcome {
        let Self {
            key,
            serial,
            message_length,
            label,
            sealed,
        } = *self;
        let mut out = vec![0; room];
        let answer = frame::open(key, serial, message_length, label, sealed, &mut out);
        outcome(answer, out)
    }
}

/// The outcome of what the second program answered and wrote.
pub fn outcome(answer: Result<usize, Refusal>, mut out: Vec<u8>) -> Outcome {
    match answer {
        Ok(written) => {
            out.truncate(written);
            Outcome::wrote(out)
        }
        Err(refusal) => refused(refusal),
    }
}

pub fn refused(refusal: Refusal) -> Outcome {
    Outcome::refused(refusal as u8)
}
