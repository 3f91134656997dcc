//! Sealing and opening of frames, from document 01: "Sealing and opening", the sizes and "What a
//! refused caller gets".

use crate::qarma::{engine, schedule, turn, Key, Schedule};

/// The greatest message length that is taken.
pub const MESSAGE_MAX: u64 = 1024;

/// The greatest label length that is taken.
pub const LABEL_MAX: u64 = 32;

/// The greatest serial that is taken.
pub const SERIAL_MAX: u64 = (1 << 44) - 1;

/// The box number of frames.
const BOX: usize = 1;

/// The rounds of frames.
const ROUNDS: usize = 7;

/// The bytes of a block, and of the tag.
const BLOCK: usize = 8;

/// The first byte of a fill; bytes 00 follow it.
const FILL: u8 = 0x80;

/// Why sealing or opening refuses, with its number in document 01.
#[derive(Clone, Copy, Debug, PartialEq, Eq)]
#[repr(u8)]
pub enum Refusal {
    /// Message or label longer than allowed.
    Length = 2,
    /// Serial above 2^44 - 1.
    Serial = 3,
    /// Sealed bytes are not 8 more than the message length rounded up to 8.
    Sealed = 4,
    /// Output shorter than the answer needs.
    Room = 5,
    /// Tag or fill disagrees.
    Tag = 6,
}

/// What a tweak is for, with its number in document 01.
#[derive(Clone, Copy)]
enum Purpose {
    WholeMessageBlock = 0,
    FilledMessageBlock = 1,
    WholeLabelBlock = 2,
    FilledLabelBlock = 3,
    /// The tag when the message length is a multiple of 8, zero included.
    WholeTag = 4,
    /// The tag otherwise.
    FilledTag = 5,
}

/// The tweak, from the top: purpose (4 bits), serial (44 bits), index (16 bits).
fn tweak(purpose: Purpose, serial: u64, index: usize) -> u64 {
    (purpose as u64) << 60 | serial << 16 | index as u64
}

/// The tweak of the message block with this index.
fn message_tweak(serial: u64, message_length: usize, index: usize) -> u64 {
    let purpose = if index < message_length / BLOCK {
        Purpose::WholeMessageBlock
    } else {
        Purpose::FilledMessageBlock
    };
    tweak(purpose, serial, index)
}

/// The tweak of the label block with this index.
fn label_tweak(serial: u64, label_length: usize, index: usize) -> u64 {
    let purpose = if index < label_length / BLOCK {
        Purpose::WholeLabelBlock
    } else {
        Purpose::FilledLabelBlock
    };
    tweak(purpose, serial, index)
}

/// The tweak of the tag, whose index is the number of message blocks.
fn tag_tweak(serial: u64, message_length: usize) -> u64 {
    let purpose = if message_length % BLOCK == 0 {
        Purpose::WholeTag
    } else {
        Purpose::FilledTag
    };
    tweak(purpose, serial, block_count(message_length))
}

/// How many blocks so many bytes are cut into.
const fn block_count(length: usize) -> usize {
    (length + BLOCK - 1) / BLOCK
}

/// The word of the block of 8 bytes, or of 1 to 7 bytes filled with byte 80 and then bytes 00.
fn block(part: &[u8]) -> u64 {
    let mut bytes = [0; BLOCK];
    bytes[..part.len()].copy_from_slice(part);
    if part.len() < BLOCK {
        bytes[part.len()] = FILL;
    }
    u64::from_be_bytes(bytes)
}

/// The words of the blocks of a message or label, the last one filled if it is not whole.
pub fn blocks(message: &[u8]) -> impl Iterator<Item = u64> + '_ {
    message.chunks(BLOCK).map(block)
}

/// Whether the bytes past the message length are exactly 80 and then 00s, or none at all.
fn is_fill(past: &[u8]) -> bool {
    match past {
        [] => true,
        [first, rest @ ..] => *first == FILL && rest.iter().all(|&byte| byte == 0),
    }
}

/// The engine with the box and the rounds of frames.
fn frame_engine(schedule: Schedule, tweak: u64, block: u64) -> u64 {
    engine(BOX, ROUNDS, schedule, tweak, block)
}

/// The sum of all enciphered label blocks, zero if there are none.
fn label_sum(schedule: Schedule, serial: u64, label: &[u8]) -> u64 {
    blocks(label).enumerate().fold(0, |sum, (index, block)| {
        let tweak = label_tweak(serial, label.len(), index);
        sum ^ frame_engine(schedule, tweak, block)
    })
}

/// The tag of a label and of a message with this length and this sum of its blocks.
fn tag(
    schedule: Schedule,
    serial: u64,
    label: &[u8],
    message_length: usize,
    message_sum: u64,
) -> u64 {
    let tweak = tag_tweak(serial, message_length);
    frame_engine(schedule, tweak, message_sum) ^ label_sum(schedule, serial, label)
}

/// How many sealed bytes a message of this length has: the enciphered blocks and the tag.
pub const fn sealed_length(message_length: usize) -> usize {
    BLOCK * block_count(message_length) + BLOCK
}

/// Gives refusals 2 and 3, which sealing and opening share.
fn check_sizes(message_length: u64, label: &[u8], serial: u64) -> Result<(), Refusal> {
    if message_length > MESSAGE_MAX || label.len() as u64 > LABEL_MAX {
        return Err(Refusal::Length);
    }
    if serial > SERIAL_MAX {
        return Err(Refusal::Serial);
    }
    Ok(())
}

/// Writes the sealed bytes of a message and answers how many they are.
pub fn seal(
    key: Key,
    serial: u64,
    label: &[u8],
    message: &[u8],
    out: &mut [u8],
) -> Result<usize, Refusal> {
    check_sizes(message.len() as u64, label, serial)?;
    let length = sealed_length(message.len());
    if out.len() < length {
        return Err(Refusal::Room);
    }
    let sealed = seal_blocks(key, serial, label, message.len(), blocks(message));
    out[..length].copy_from_slice(&sealed);
    Ok(length)
}

/// The sealed bytes of any blocks, as many as a message of this length has, under their right tag.
///
/// The fill of the last block is taken as it comes, and nothing is refused.
pub fn seal_blocks(
    key: Key,
    serial: u64,
    label: &[u8],
    message_length: usize,
    blocks: impl Iterator<Item = u64>,
) -> Vec<u8> {
    let schedule = schedule(key);
    let mut sealed = Vec::with_capacity(sealed_length(message_length));
    let mut sum = 0;
    for (index, block) in blocks.enumerate() {
        let tweak = message_tweak(serial, message_length, index);
        let enciphered = frame_engine(schedule, tweak, block);
        sealed.extend_from_slice(&enciphered.to_be_bytes());
        sum ^= block;
    }
    let tag = tag(schedule, serial, label, message_length, sum);
    sealed.extend_from_slice(&tag.to_be_bytes());
    sealed
}

/// Writes the message of the sealed bytes, if tag and fill agree, and answers its length.
pub fn open(
    key: Key,
    serial: u64,
    message_length: u64,
    label: &[u8],
    sealed: &[u8],
    out: &mut [u8],
) -> Result<usize, Refusal> {
    check_sizes(message_length, label, serial)?;
    let message_length = message_length as usize;
    if sealed.len() != sealed_length(message_length) {
        return Err(Refusal::Sealed);
    }
    if out.len() < message_length {
        return Err(Refusal::Room);
    }

    let schedule = schedule(key);
    let turned = turn(schedule);
    let (enciphered_blocks, sealed_tag) = sealed.split_at(sealed.len() - BLOCK);
    let mut filled = Vec::with_capacity(enciphered_blocks.len());
    let mut sum = 0;
    for (index, enciphered) in blocks(enciphered_blocks).enumerate() {
        let tweak = message_tweak(serial, message_length, index);
        let block = frame_engine(turned, tweak, enciphered);
        filled.extend_from_slice(&block.to_be_bytes());
        sum ^= block;
    }

    let (message, past) = filled.split_at(message_length);
    let tag = tag(schedule, serial, label, message_length, sum);
    if tag.to_be_bytes() != sealed_tag || !is_fill(past) {
        return Err(Refusal::Tag);
    }
    out[..message_length].copy_from_slice(message);
    Ok(message_length)
}

#[cfg(test)]
mod tests {
    use super::*;
    use crate::qarma::encipher;
    use crate::rng::Rng;

    const KEY: Key = Key {
        w0: 0x84BE85CE9804E94B,
        k0: 0xEC2802D4E0A488E9,
    };

    /// Random bytes that stand in a lent output before the call.
    fn lent(room: usize) -> Vec<u8> {
        Rng::new(0x1E47).bytes(room)
    }

    /// Seals into a lent output of just the right room.
    fn sealed(key: Key, serial: u64, label: &[u8], message: &[u8]) -> Vec<u8> {
        let mut out = lent(sealed_length(message.len()));
        assert_eq!(seal(key, serial, label, message, &mut out), Ok(out.len()));
        out
    }

    /// Asserts that opening in ample room gives this message and leaves the bytes past it.
    fn assert_opens(key: Key, serial: u64, label: &[u8], sealed: &[u8], message: &[u8]) {
        let length = message.len();
        let before = lent(length + 20);
        let mut out = before.clone();
        let answer = open(key, serial, length as u64, label, sealed, &mut out);
        assert_eq!(answer, Ok(length));
        assert_eq!(&out[..length], message);
        assert_eq!(&out[length..], &before[length..]);
    }

    /// Asserts that opening in ample room is refused 6 and leaves the output as it was.
    fn assert_disagrees(key: Key, serial: u64, length: usize, label: &[u8], sealed: &[u8]) {
        let before = lent(length + 20);
        let mut out = before.clone();
        let answer = open(key, serial, length as u64, label, sealed, &mut out);
        assert_eq!(answer, Err(Refusal::Tag));
        assert_eq!(out, before);
    }

    fn with_flipped_bit(bytes: &[u8], bit: usize) -> Vec<u8> {
        let mut changed = bytes.to_vec();
        changed[bit / 8] ^= 0x80 >> (bit % 8);
        changed
    }

    /// Box 1 and r = 7 under `KEY`, for frames worked out by hand.
    fn e(tweak: u64, block: u64) -> u64 {
        encipher(1, 7, KEY, tweak, block)
    }

    fn words(message: &[u8]) -> Vec<u64> {
        blocks(message).collect()
    }

    fn bytes_of(words: &[u64]) -> Vec<u8> {
        words.iter().flat_map(|word| word.to_be_bytes()).collect()
    }

    #[test]
    fn sizes_and_numbers_of_the_paper() {
        assert_eq!((MESSAGE_MAX, LABEL_MAX), (1_024, 32));
        assert_eq!(SERIAL_MAX, 0xFFF_FFFF_FFFF);
        assert_eq!(Refusal::Length as u8, 2);
        assert_eq!(Refusal::Serial as u8, 3);
        assert_eq!(Refusal::Sealed as u8, 4);
        assert_eq!(Refusal::Room as u8, 5);
        assert_eq!(Refusal::Tag as u8, 6);
    }

    #[test]
    fn p13_filling_the_one_byte_ff() {
        assert_eq!(words(&[0xFF]), [0xFF80000000000000]);
    }

    #[test]
    fn p14_purpose_4_serial_1_index_0() {
        assert_eq!(tweak(Purpose::WholeTag, 1, 0), 0x4000000000010000);
        assert_eq!(tag_tweak(1, 0), 0x4000000000010000);
    }

    #[test]
    fn blocks_are_cut_and_filled() {
        let bytes: Vec<u8> = (0x01..=0x11).collect();
        assert!(words(&[]).is_empty());
        assert_eq!(words(&bytes[..7]), [0x0102030405060780]);
        assert_eq!(words(&bytes[..8]), [0x0102030405060708]);
        assert_eq!(words(&bytes[..9]), [0x0102030405060708, 0x0980000000000000]);
        assert_eq!(
            words(&bytes[..16]),
            [0x0102030405060708, 0x090A0B0C0D0E0F10]
        );
        assert_eq!(
            words(&bytes),
            [0x0102030405060708, 0x090A0B0C0D0E0F10, 0x1180000000000000]
        );
    }

    #[test]
    fn tweaks_of_every_purpose() {
        assert_eq!(message_tweak(SERIAL_MAX, 16, 1), 0x0FFFFFFFFFFF0001);
        assert_eq!(message_tweak(SERIAL_MAX, 17, 1), 0x0FFFFFFFFFFF0001);
        assert_eq!(message_tweak(SERIAL_MAX, 15, 1), 0x1FFFFFFFFFFF0001);
        assert_eq!(label_tweak(SERIAL_MAX, 32, 3), 0x2FFFFFFFFFFF0003);
        assert_eq!(label_tweak(SERIAL_MAX, 31, 3), 0x3FFFFFFFFFFF0003);
        assert_eq!(tag_tweak(SERIAL_MAX, 1_024), 0x4FFFFFFFFFFF0080);
        assert_eq!(tag_tweak(SERIAL_MAX, 1_023), 0x5FFFFFFFFFFF0080);
        assert_eq!(tag_tweak(SERIAL_MAX, 1_017), 0x5FFFFFFFFFFF0080);
        assert_eq!(tag_tweak(SERIAL_MAX, 1_016), 0x4FFFFFFFFFFF007F);
    }

    #[test]
    fn lengths_of_the_examples() {
        assert_eq!(sealed(KEY, 1, b"", b"").len(), 8);
        assert_eq!(sealed(KEY, 1, b"", b"a").len(), 16);
        assert_eq!(sealed(KEY, 1, b"", &[0; 1_024]).len(), 1_032);
        assert_eq!((sealed_length(0), sealed_length(1)), (8, 16));
        assert_eq!((sealed_length(8), sealed_length(9)), (16, 24));
        assert_eq!((sealed_length(1_016), sealed_length(1_017)), (1_024, 1_032));
        assert_eq!(sealed_length(1_024), 1_032);
    }

    #[test]
    fn empty_frame_by_hand() {
        let by_hand = bytes_of(&[e(0x4000000000010000, 0)]);
        assert_eq!(sealed(KEY, 1, b"", b""), by_hand);
    }

    #[test]
    fn frame_with_whole_blocks_by_hand() {
        let label = [0xA0, 0xA1, 0xA2, 0xA3, 0xA4, 0xA5, 0xA6, 0xA7];
        let message = [0x11, 0x22, 0x33, 0x44, 0x55, 0x66, 0x77, 0x88];
        let by_hand = bytes_of(&[
            e(0x0FFFFFFFFFFF0000, 0x1122334455667788),
            e(0x4FFFFFFFFFFF0001, 0x1122334455667788) ^ e(0x2FFFFFFFFFFF0000, 0xA0A1A2A3A4A5A6A7),
        ]);
        assert_eq!(sealed(KEY, SERIAL_MAX, &label, &message), by_hand);
        assert_opens(KEY, SERIAL_MAX, &label, &by_hand, &message);
    }

    #[test]
    fn frame_with_filled_blocks_by_hand() {
        let label: Vec<u8> = (0xA0..=0xA8).collect();
        let message: Vec<u8> = (0x01..=0x11).collect();
        let by_hand = bytes_of(&[
            e(0x0123456789AB0000, 0x0102030405060708),
            e(0x0123456789AB0001, 0x090A0B0C0D0E0F10),
            e(0x1123456789AB0002, 0x1180000000000000),
            e(0x5123456789AB0003, 0x1988080808080818)
                ^ e(0x2123456789AB0000, 0xA0A1A2A3A4A5A6A7)
                ^ e(0x3123456789AB0001, 0xA880000000000000),
        ]);
        assert_eq!(sealed(KEY, 0x123456789AB, &label, &message), by_hand);
        assert_opens(KEY, 0x123456789AB, &label, &by_hand, &message);
    }

    #[test]
    fn opening_gives_back_what_was_sealed() {
        let mut rng = Rng::new(1);
        for length in 0..=1_024 {
            let key = Key {
                w0: rng.word(),
                k0: rng.word(),
            };
            let serial = rng.word() >> 20;
            let label = rng.bytes(length % 33);
            let message = rng.bytes(length);
            let sealed = sealed(key, serial, &label, &message);
            assert_opens(key, serial, &label, &sealed, &message);
        }
    }

    #[test]
    fn every_changed_bit_is_refused() {
        let mut rng = Rng::new(2);
        for length in 0..=17 {
            let serial = rng.word() >> 20;
            let label = rng.bytes(17 - length);
            let message = rng.bytes(length);
            let sealed = sealed(KEY, serial, &label, &message);
            assert_opens(KEY, serial, &label, &sealed, &message);

            for bit in 0..8 * sealed.len() {
                let changed = with_flipped_bit(&sealed, bit);
                assert_disagrees(KEY, serial, length, &label, &changed);
            }
            for bit in 0..8 * label.len() {
                let changed = with_flipped_bit(&label, bit);
                assert_disagrees(KEY, serial, length, &changed, &sealed);
            }
            for bit in 0..44 {
                assert_disagrees(KEY, serial ^ (1 << bit), length, &label, &sealed);
            }
            for bit in 0..64 {
                let (w0, k0) = (KEY.w0 ^ (1 << bit), KEY.k0 ^ (1 << bit));
                assert_disagrees(Key { w0, ..KEY }, serial, length, &label, &sealed);
                assert_disagrees(Key { k0, ..KEY }, serial, length, &label, &sealed);
            }
        }
    }

    #[test]
    fn a_label_of_another_length_is_refused() {
        let filled_by_the_caller = [1, 2, 3, 0x80, 0, 0, 0, 0];
        let sealed = sealed(KEY, 7, &filled_by_the_caller, b"message");
        assert_opens(KEY, 7, &filled_by_the_caller, &sealed, b"message");
        for length in 0..8 {
            assert_disagrees(KEY, 7, 7, &filled_by_the_caller[..length], &sealed);
        }
    }

    #[test]
    fn seal_blocks_seals_the_blocks_of_a_message() {
        let mut rng = Rng::new(3);
        for length in 0..=40 {
            let (label, message) = (rng.bytes(length % 33), rng.bytes(length));
            assert_eq!(
                seal_blocks(KEY, 5, &label, length, blocks(&message)),
                sealed(KEY, 5, &label, &message)
            );
        }
    }

    /// A changed bit under its right tag: of the message it opens changed, of the fill it is
    /// refused.
    #[test]
    fn a_changed_fill_is_refused_under_its_right_tag() {
        let mut rng = Rng::new(4);
        for length in (1..=7).chain(17..=23) {
            let (label, message) = (rng.bytes(3), rng.bytes(length));
            let last_bit = 64 * block_count(length);
            for bit in last_bit - 64..last_bit {
                let filled = with_flipped_bit(&bytes_of(&words(&message)), bit);
                let sealed = seal_blocks(KEY, 6, &label, length, blocks(&filled));
                if bit < 8 * length {
                    assert_opens(KEY, 6, &label, &sealed, &filled[..length]);
                } else {
                    assert_disagrees(KEY, 6, length, &label, &sealed);
                }
            }
        }
    }

    #[test]
    fn wrong_fills_of_five_bytes_are_refused_under_their_right_tag() {
        let open_with_past = |past: u64| {
            let sealed = seal_blocks(KEY, 6, b"", 3, [0x0102030000000000 | past].into_iter());
            let mut out = [0; 3];
            open(KEY, 6, 3, b"", &sealed, &mut out).map(|_| out)
        };
        assert_eq!(open_with_past(0x8000000000), Ok([1, 2, 3]));
        for past in [
            0x0000000000,
            0x0080000000,
            0x0000000080,
            0x0000000001,
            0x0100000000,
            0x8080000000,
            0x8000000080,
            0x8080808080,
            0x80FFFFFFFF,
            0xFFFFFFFFFF,
        ] {
            assert_eq!(open_with_past(past), Err(Refusal::Tag), "{past:010X}");
        }
    }

    /// Messages of random bytes, of bytes 00, of bytes 80, and one that ends as a fill does.
    #[test]
    fn other_lengths_with_as_many_blocks_are_refused() {
        let mut rng = Rng::new(5);
        for length in (1..=24).chain(1_017..=1_024) {
            let mut like_a_fill = vec![0; length];
            like_a_fill[(length - 1) / 8 * 8] = 0x80;
            let messages = [
                rng.bytes(length),
                vec![0; length],
                vec![0x80; length],
                like_a_fill,
            ];
            for message in messages {
                let sealed = sealed(KEY, 8, b"label", &message);
                let most = 8 * block_count(length);
                for other in most - 7..=most {
                    if other == length {
                        assert_opens(KEY, 8, b"label", &sealed, &message);
                    } else {
                        assert_disagrees(KEY, 8, other, b"label", &sealed);
                    }
                }
            }
        }
    }

    /// Serials at the edge, each with the refusal that it calls for.
    const SERIALS: [(u64, Option<Refusal>); 3] = [
        ((1 << 44) - 1, None),
        (1 << 44, Some(Refusal::Serial)),
        (u64::MAX, Some(Refusal::Serial)),
    ];

    /// The refusal that is given when all of these are called for: the one of least number.
    fn first_of<const N: usize>(called_for: [Option<Refusal>; N]) -> Option<Refusal> {
        called_for
            .into_iter()
            .flatten()
            .min_by_key(|&refusal| refusal as u8)
    }

    /// Asserts that the call was refused so and left its output as it was lent, or else that it
    /// wrote just these bytes and answered their count.
    fn assert_outcome(
        answer: Result<usize, Refusal>,
        out: &[u8],
        refusal: Option<Refusal>,
        written: &[u8],
    ) {
        let mut expected = lent(out.len());
        if let Some(refusal) = refusal {
            assert_eq!(answer, Err(refusal));
        } else {
            assert_eq!(answer, Ok(written.len()));
            expected[..written.len()].copy_from_slice(written);
        }
        assert_eq!(out, expected);
    }

    /// Every mix of what calls for 2, 3 and 5, where 1,032 bytes of room are needed.
    #[test]
    fn order_of_refusals_of_sealing() {
        let mut rng = Rng::new(6);
        let (label, message) = (rng.bytes(33), rng.bytes(1_025));
        let right = sealed(KEY, (1 << 44) - 1, &label[..32], &message[..1_024]);
        let messages = [
            (&message[..1_024], None),
            (&message[..], Some(Refusal::Length)),
        ];
        let labels = [(&label[..32], None), (&label[..], Some(Refusal::Length))];
        let rooms = [
            (1_052, None),
            (1_032, None),
            (1_031, Some(Refusal::Room)),
            (0, Some(Refusal::Room)),
        ];
        for (message, from_message) in messages {
            for (label, from_label) in labels {
                for (serial, from_serial) in SERIALS {
                    for (room, from_room) in rooms {
                        let refusal = first_of([from_message, from_label, from_serial, from_room]);
                        let mut out = lent(room);
                        let answer = seal(KEY, serial, label, message, &mut out);
                        assert_outcome(answer, &out, refusal, &right);
                    }
                }
            }
        }
    }

    /// Every mix of what calls for 2 to 6, where 1,023 bytes of room are needed.
    #[test]
    fn order_of_refusals_of_opening() {
        let mut rng = Rng::new(7);
        let (label, message) = (rng.bytes(33), rng.bytes(1_023));
        let right = sealed(KEY, (1 << 44) - 1, &label[..32], &message);
        let wrong_block = with_flipped_bit(&right, 0);
        let wrong_tag = with_flipped_bit(&right, 8 * 1_032 - 1);
        let longer = [&right[..], &[0]].concat();
        let lengths = [
            (1_023, None),
            (1_025, Some(Refusal::Length)),
            (u64::MAX, Some(Refusal::Length)),
        ];
        let labels = [(&label[..32], None), (&label[..], Some(Refusal::Length))];
        let sealed_bytes = [
            (&right[..], None),
            (&wrong_block[..], Some(Refusal::Tag)),
            (&wrong_tag[..], Some(Refusal::Tag)),
            (&longer[..], Some(Refusal::Sealed)),
            (&right[..1_031], Some(Refusal::Sealed)),
            (&right[..1_024], Some(Refusal::Sealed)),
            (&right[..0], Some(Refusal::Sealed)),
        ];
        let rooms = [
            (1_043, None),
            (1_023, None),
            (1_022, Some(Refusal::Room)),
            (0, Some(Refusal::Room)),
        ];
        for (length, from_length) in lengths {
            for (label, from_label) in labels {
                for (serial, from_serial) in SERIALS {
                    for (sealed, from_sealed) in sealed_bytes {
                        for (room, from_room) in rooms {
                            let refusal = first_of([
                                from_length,
                                from_label,
                                from_serial,
                                from_sealed,
                                from_room,
                            ]);
                            let mut out = lent(room);
                            let answer = open(KEY, serial, length, label, sealed, &mut out);
                            assert_outcome(answer, &out, refusal, &message);
                        }
                    }
                }
            }
        }
    }

    #[test]
    fn every_short_room_is_refused() {
        let mut rng = Rng::new(8);
        for length in 0..=24 {
            let message = rng.bytes(length);
            let right = sealed(KEY, 9, b"label", &message);
            for room in 0..=right.len() {
                let refusal = (room < right.len()).then_some(Refusal::Room);
                let mut out = lent(room);
                let answer = seal(KEY, 9, b"label", &message, &mut out);
                assert_outcome(answer, &out, refusal, &right);
            }
            for room in 0..=length {
                let refusal = (room < length).then_some(Refusal::Room);
                let mut out = lent(room);
                let answer = open(KEY, 9, length as u64, b"label", &right, &mut out);
                assert_outcome(answer, &out, refusal, &message);
            }
        }
    }

    #[test]
    fn every_other_count_of_sealed_bytes_is_refused() {
        let bytes = Rng::new(9).bytes(48);
        for length in 0..=24 {
            let right = sealed(KEY, 9, b"label", &bytes[..length]);
            for count in (0..=48).filter(|&count| count != right.len()) {
                let mut out = lent(48);
                let answer = open(KEY, 9, length as u64, b"label", &bytes[..count], &mut out);
                assert_outcome(answer, &out, Some(Refusal::Sealed), &[]);
            }
        }
    }

    #[test]
    fn every_long_message_length_is_refused() {
        let sealed = sealed(KEY, 9, b"label", b"");
        let powers = (11..64).map(|power| 1 << power);
        let last = (0..16).map(|back| u64::MAX - back);
        for length in (1_025..=1_040).chain(powers).chain(last) {
            let mut out = lent(20);
            let answer = open(KEY, 9, length, b"label", &sealed, &mut out);
            assert_outcome(answer, &out, Some(Refusal::Length), &[]);
        }
    }
}
