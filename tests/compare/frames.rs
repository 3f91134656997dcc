//! The inputs that `kk_seal` and `kk_open` are both tried on.

use second::calls::frames::SealCall;
use second::frame::{LABEL_MAX, MESSAGE_MAX, SERIAL_MAX};
use second::qarma::Key;
use second::rng::Rng;

/// The sizes of document 01, as lengths.
pub const LONGEST_MESSAGE: usize = MESSAGE_MAX as usize;
pub const LONGEST_LABEL: usize = LABEL_MAX as usize;

/// Lengths that are refused. Some come inside the sizes when cut to 8 or 16 bits.
pub const BAD_MESSAGES: [usize; 10] = [
    1_025, 1_026, 1_031, 1_032, 1_033, 2_000, 2_048, 65_535, 65_536, 65_552,
];
pub const BAD_LABELS: [usize; 10] = [33, 34, 39, 40, 41, 64, 255, 256, 272, 65_544];

/// Messages of up to this many bytes are short: more is tried on them.
pub const SHORT: usize = 24;

/// Some long messages.
pub const LONG: [usize; 6] = [1_000, 1_015, 1_016, 1_017, 1_023, LONGEST_MESSAGE];

/// Random memory that messages and labels are taken from.
pub struct Memory {
    pub rng: Rng,
    pub bytes: Vec<u8>,
}

impl Memory {
    pub fn new(seed: u64) -> Self {
        let mut rng = Rng::new(seed);
        let bytes = rng.bytes(1 << 17);
        Self { rng, bytes }
    }

    pub fn key(&mut self) -> Key {
        Key {
            w0: self.rng.word(),
            k0: self.rng.word(),
        }
    }

    pub fn serial(&mut self) -> u64 {
        self.rng.word() & SERIAL_MAX
    }

    /// A call under a random key, with a random label and message of these lengths.
    pub fn call(&mut self, serial: u64, label: usize, message: usize) -> SealCall<'_> {
        let key = self.key();
        let places = self.rng.word() as usize;
        let label_place = 1 + places % 500;
        let message_place = 1 + (places >> 32) % 500;
        SealCall {
            key,
            serial,
            label: &self.bytes[label_place..][..label],
            message: &self.bytes[message_place..][..message],
        }
    }

    /// The same under a random serial.
    pub fn random(&mut self, label: usize, message: usize) -> SealCall<'_> {
        let serial = self.serial();
        self.call(serial, label, message)
    }
}

/// Every message length under four serials, with some room to spare. Each serial meets all pairs of a
/// label length with a remainder of the message length by 8, for 33 and 8 have no common divisor.
pub fn each_length(seed: u64, mut each: impl FnMut(SealCall, usize)) {
    let mut memory = Memory::new(seed);
    for message in 0..=LONGEST_MESSAGE {
        let serials = [0, 1, memory.serial(), SERIAL_MAX];
        for (i, (serial, spare)) in serials.into_iter().zip([0, 1, 8, 50]).enumerate() {
            let label = (message + 8 * i) % (LONGEST_LABEL + 1);
            each(memory.call(serial, label, message), spare);
        }
    }
}

/// Every label length with every short message, of equal bytes: a place or a fill that is mistaken
/// for another shows by its tweak alone.
pub fn each_of_equal_bytes(seed: u64, mut each: impl FnMut(SealCall)) {
    let mut memory = Memory::new(seed);
    for byte in [0x00, 0x80, 0xFF] {
        let bytes = [byte; LONGEST_LABEL];
        for label in 0..=LONGEST_LABEL {
            for message in 0..=SHORT {
                each(SealCall {
                    key: memory.key(),
                    serial: memory.serial(),
                    label: &bytes[..label],
                    message: &bytes[..message],
                });
            }
        }
    }
}

/// Each bit of key, serial, label and message by itself: set among zeros, and clear among ones.
pub fn each_single_bit(mut each: impl FnMut(SealCall)) {
    const LABEL: usize = 13;
    const MESSAGE: usize = 21;
    const BYTES: usize = 8 + 8 + 8 + LABEL + MESSAGE;
    for bit in 0..8 * BYTES {
        for others in [0x00, 0xFF] {
            let mut bytes = [others; BYTES];
            bytes[bit / 8] ^= 1 << (bit % 8);
            let word = |i: usize| {
                let bytes = bytes[8 * i..8 * i + 8].try_into();
                u64::from_be_bytes(bytes.expect("a part of 8 bytes"))
            };
            let (label, message) = bytes[24..].split_at(LABEL);
            each(SealCall {
                key: Key {
                    w0: word(0),
                    k0: word(1),
                },
                serial: word(2) & SERIAL_MAX,
                label,
                message,
            });
        }
    }
}

/// Each bit that a serial has, and the least and the greatest serials.
pub fn good_serials() -> impl Iterator<Item = u64> {
    let bits = (0..44).map(|bit| 1 << bit);
    bits.chain([0]).chain(SERIAL_MAX - 8..=SERIAL_MAX)
}

/// Serials above the greatest: near it, and those that come inside when cut to 44 bits or fewer.
pub fn bad_serials(rng: &mut Rng) -> Vec<u64> {
    let near = [SERIAL_MAX + 1, SERIAL_MAX + 2, u64::MAX - 1, u64::MAX];
    let high = (44..64).flat_map(|bit| [1 << bit, 1 << bit | 1, 1 << bit | SERIAL_MAX]);
    let random = (0..20).map(|i| rng.word() | 1 << (44 + i));
    near.into_iter().chain(high).chain(random).collect()
}
