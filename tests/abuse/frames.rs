//! Frames that the second program sealed, and damage to them.

use crate::damage::damage;
use crate::numbers;
use second::frame::{self, MESSAGE_MAX, SERIAL_MAX};
use second::line;
use second::qarma::Key;
use second::rng::Rng;

/// What opening is told of a frame, and the frame.
#[derive(Clone)]
pub struct Frame {
    pub key: Key,
    pub serial: u64,
    pub message_length: u64,
    pub label: Vec<u8>,
    pub sealed: Vec<u8>,
}

pub fn key(rng: &mut Rng) -> Key {
    Key {
        w0: numbers::word(rng),
        k0: numbers::word(rng),
    }
}

impl Frame {
    /// A frame within the sizes under this key. One in eight has a bit of its last block changed under
    /// the tag that belongs to it, so its fill may be wrong and nothing else.
    pub fn new(rng: &mut Rng, key: Key) -> Self {
        let serial = numbers::good_serial(rng);
        let label = numbers::bytes(rng, numbers::good_label_length);
        let message = numbers::bytes(rng, numbers::good_message_length);
        let mut blocks: Vec<u64> = frame::blocks(&message).collect();
        if let (Some(last), true) = (blocks.last_mut(), numbers::one_in(rng, 8)) {
            *last ^= 1 << rng.below(64);
        }
        let blocks = blocks.into_iter();
        let sealed = frame::seal_blocks(key, serial, &label, message.len(), blocks);
        Self {
            key,
            serial,
            message_length: message.len() as u64,
            label,
            sealed,
        }
    }

    /// The line of the frame, whether or not a size is exceeded.
    pub fn line(&self) -> Vec<u8> {
        let message_length = self.message_length as usize;
        line::text(self.serial, &self.label, message_length, &self.sealed)
    }

    /// Damages the frame, or what is told of it, in one of the ways below.
    pub fn damage(&mut self, other: &Frame, rng: &mut Rng) {
        rng.one_of(&DAMAGES)(self, other, rng);
    }
}

const DAMAGES: [fn(&mut Frame, &Frame, &mut Rng); 12] = [
    |frame, _, rng| damage(&mut frame.sealed, rng),
    |frame, _, rng| damage(&mut frame.label, rng),
    // Another key: a bit changed, the halves exchanged, or another frame's.
    |frame, _, rng| frame.key.w0 ^= 1 << rng.below(64),
    |frame, _, rng| frame.key.k0 ^= 1 << rng.below(64),
    |frame, _, _| {
        let Key { w0, k0 } = frame.key;
        frame.key = Key { w0: k0, k0: w0 };
    },
    |frame, other, _| frame.key = other.key,
    // Another serial, length or label.
    |frame, _, rng| frame.serial = numbers::another(rng, frame.serial, SERIAL_MAX),
    |frame, other, _| frame.serial = other.serial,
    |frame, _, rng| {
        frame.message_length = numbers::another(rng, frame.message_length, MESSAGE_MAX);
    },
    |frame, _, rng| frame.label = numbers::bytes(rng, numbers::label_length),
    // Sealed bytes or a block of another frame.
    |frame, other, _| frame.sealed = other.sealed.clone(),
    |frame, other, rng| {
        let blocks = frame.sealed.len().min(other.sealed.len()) / 8;
        if blocks > 0 {
            let block = 8 * rng.below(blocks)..;
            frame.sealed[block.clone()][..8].copy_from_slice(&other.sealed[block][..8]);
        }
    },
];
