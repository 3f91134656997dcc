//! The library's C functions, as `include/kkurimyeot.h` declares them.

use crate::qarma::{Key, Schedule};

mod c {
    extern "C" {
        pub fn kk_schedule(w0: u64, k0: u64, out: *mut u8, out_length: usize) -> u64;
        pub fn kk_turn(w0: u64, w1: u64, k0: u64, k1: u64, out: *mut u8, out_length: usize) -> u64;
        pub fn kk_engine(
            box_number: u64,
            rounds: u64,
            w0: u64,
            w1: u64,
            k0: u64,
            k1: u64,
            tweak: u64,
            block: u64,
            out: *mut u8,
            out_length: usize,
        ) -> u64;
        pub fn kk_encipher(
            box_number: u64,
            rounds: u64,
            w0: u64,
            k0: u64,
            tweak: u64,
            block: u64,
            out: *mut u8,
            out_length: usize,
        ) -> u64;
        pub fn kk_decipher(
            box_number: u64,
            rounds: u64,
            w0: u64,
            k0: u64,
            tweak: u64,
            block: u64,
            out: *mut u8,
            out_length: usize,
        ) -> u64;
        pub fn kk_seal(
            w0: u64,
            k0: u64,
            serial: u64,
            label: *const u8,
            label_length: usize,
            message: *const u8,
            message_length: usize,
            out: *mut u8,
            out_length: usize,
        ) -> u64;
        pub fn kk_open(
            w0: u64,
            k0: u64,
            serial: u64,
            message_length: u64,
            label: *const u8,
            label_length: usize,
            sealed: *const u8,
            sealed_length: usize,
            out: *mut u8,
            out_length: usize,
        ) -> u64;
        pub fn kk_read_line(
            line: *const u8,
            line_length: usize,
            out: *mut u8,
            out_length: usize,
        ) -> u64;
        pub fn kk_write_line(
            w0: u64,
            k0: u64,
            serial: u64,
            label: *const u8,
            label_length: usize,
            message: *const u8,
            message_length: usize,
            out: *mut u8,
            out_length: usize,
        ) -> u64;
        pub fn kk_open_line(
            w0: u64,
            k0: u64,
            line: *const u8,
            line_length: usize,
            out: *mut u8,
            out_length: usize,
        ) -> u64;
        pub fn kk128_schedule(
            w0_high: u64,
            w0_low: u64,
            k0_high: u64,
            k0_low: u64,
            out: *mut u8,
            out_length: usize,
        ) -> u64;
        pub fn kk128_turn(
            w0_high: u64,
            w0_low: u64,
            w1_high: u64,
            w1_low: u64,
            k0_high: u64,
            k0_low: u64,
            k1_high: u64,
            k1_low: u64,
            out: *mut u8,
            out_length: usize,
        ) -> u64;
        pub fn kk128_engine(
            box_number: u64,
            rounds: u64,
            w0_high: u64,
            w0_low: u64,
            w1_high: u64,
            w1_low: u64,
            k0_high: u64,
            k0_low: u64,
            k1_high: u64,
            k1_low: u64,
            tweak_high: u64,
            tweak_low: u64,
            block_high: u64,
            block_low: u64,
            out: *mut u8,
            out_length: usize,
        ) -> u64;
        pub fn kk128_encipher(
            box_number: u64,
            rounds: u64,
            w0_high: u64,
            w0_low: u64,
            k0_high: u64,
            k0_low: u64,
            tweak_high: u64,
            tweak_low: u64,
            block_high: u64,
            block_low: u64,
            out: *mut u8,
            out_length: usize,
        ) -> u64;
        pub fn kk128_decipher(
            box_number: u64,
            rounds: u64,
            w0_high: u64,
            w0_low: u64,
            k0_high: u64,
            k0_low: u64,
            tweak_high: u64,
            tweak_low: u64,
            block_high: u64,
            block_low: u64,
            out: *mut u8,
            out_length: usize,
        ) -> u64;
    }
}

// SAFETY, for each call below: each pointer and the length after it are those of one slice, and the
// library writes inside the mutable slice it is lent and nowhere else.

pub fn schedule(key: Key, out: &mut [u8]) -> u64 {
    unsafe { c::kk_schedule(key.w0, key.k0, out.as_mut_ptr(), out.len()) }
}

pub fn turn(schedule: Schedule, out: &mut [u8]) -> u64 {
    let Schedule { w0, w1, k0, k1 } = schedule;
    unsafe { c::kk_turn(w0, w1, k0, k1, out.as_mut_ptr(), out.len()) }
}

pub fn engine(
    box_number: u64,
    rounds: u64,
    schedule: Schedule,
    tweak: u64,
    block: u64,
    out: &mut [u8],
) -> u64 {
    let Schedule { w0, w1, k0, k1 } = schedule;
    let (place, room) = (out.as_mut_ptr(), out.len());
    unsafe {
        c::kk_engine(
            box_number, rounds, w0, w1, k0, k1, tweak, block, place, room,
        )
    }
}

pub fn encipher(
    box_number: u64,
    rounds: u64,
    key: Key,
    tweak: u64,
    block: u64,
    out: &mut [u8],
) -> u64 {
    let (place, room) = (out.as_mut_ptr(), out.len());
    unsafe {
        c::kk_encipher(
            box_number, rounds, key.w0, key.k0, tweak, block, place, room,
        )
    }
}

pub fn decipher(
    box_number: u64,
    rounds: u64,
    key: Key,
    tweak: u64,
    block: u64,
    out: &mut [u8],
) -> u64 {
    let (place, room) = (out.as_mut_ptr(), out.len());
    unsafe {
        c::kk_decipher(
            box_number, rounds, key.w0, key.k0, tweak, block, place, room,
        )
    }
}

pub fn seal(key: Key, serial: u64, label: &[u8], message: &[u8], out: &mut [u8]) -> u64 {
    let (label, label_length) = (label.as_ptr(), label.len());
    let (message, message_length) = (message.as_ptr(), message.len());
    let (place, room) = (out.as_mut_ptr(), out.len());
    unsafe {
        c::kk_seal(
            key.w0,
            key.k0,
            serial,
            label,
            label_length,
            message,
            message_length,
            place,
            room,
        )
    }
}

pub fn open(
    key: Key,
    serial: u64,
    message_length: u64,
    label: &[u8],
    sealed: &[u8],
    out: &mut [u8],
) -> u64 {
    let (label, label_length) = (label.as_ptr(), label.len());
    let (sealed, sealed_length) = (sealed.as_ptr(), sealed.len());
    let (place, room) = (out.as_mut_ptr(), out.len());
    unsafe {
        c::kk_open(
            key.w0,
            key.k0,
            serial,
            message_length,
            label,
            label_length,
            sealed,
            sealed_length,
            place,
            room,
        )
    }
}

pub fn read_line(line: &[u8], out: &mut [u8]) -> u64 {
    unsafe { c::kk_read_line(line.as_ptr(), line.len(), out.as_mut_ptr(), out.len()) }
}

pub fn write_line(key: Key, serial: u64, label: &[u8], message: &[u8], out: &mut [u8]) -> u64 {
    let (label, label_length) = (label.as_ptr(), label.len());
    let (message, message_length) = (message.as_ptr(), message.len());
    let (place, room) = (out.as_mut_ptr(), out.len());
    unsafe {
        c::kk_write_line(
            key.w0,
            key.k0,
            serial,
            label,
            label_length,
            message,
            message_length,
            place,
            room,
        )
    }
}

pub fn open_line(key: Key, line: &[u8], out: &mut [u8]) -> u64 {
    let (line, line_length) = (line.as_ptr(), line.len());
    let (place, room) = (out.as_mut_ptr(), out.len());
    unsafe { c::kk_open_line(key.w0, key.k0, line, line_length, place, room) }
}

/// The two numbers that a value of 128 bits is handed in as.
pub fn halves(value: u128) -> [u64; 2] {
    [(value >> 64) as u64, value as u64]
}

pub fn schedule128(key: Key<u128>, out: &mut [u8]) -> u64 {
    let [w0, k0] = [key.w0, key.k0].map(halves);
    unsafe { c::kk128_schedule(w0[0], w0[1], k0[0], k0[1], out.as_mut_ptr(), out.len()) }
}

pub fn turn128(schedule: Schedule<u128>, out: &mut [u8]) -> u64 {
    let Schedule { w0, w1, k0, k1 } = schedule;
    let [w0, w1, k0, k1] = [w0, w1, k0, k1].map(halves);
    let (place, room) = (out.as_mut_ptr(), out.len());
    unsafe {
        c::kk128_turn(
            w0[0], w0[1], w1[0], w1[1], k0[0], k0[1], k1[0], k1[1], place, room,
        )
    }
}

pub fn engine128(
    box_number: u64,
    rounds: u64,
    schedule: Schedule<u128>,
    tweak: u128,
    block: u128,
    out: &mut [u8],
) -> u64 {
    let Schedule { w0, w1, k0, k1 } = schedule;
    let [w0, w1, k0, k1, tweak, block] = [w0, w1, k0, k1, tweak, block].map(halves);
    let (place, room) = (out.as_mut_ptr(), out.len());
    unsafe {
        c::kk128_engine(
            box_number, rounds, w0[0], w0[1], w1[0], w1[1], k0[0], k0[1], k1[0], k1[1], tweak[0],
            tweak[1], block[0], block[1], place, room,
        )
    }
}

pub fn encipher128(
    box_number: u64,
    rounds: u64,
    key: Key<u128>,
    tweak: u128,
    block: u128,
    out: &mut [u8],
) -> u64 {
    let [w0, k0, tweak, block] = [key.w0, key.k0, tweak, block].map(halves);
    let (place, room) = (out.as_mut_ptr(), out.len());
    unsafe {
        c::kk128_encipher(
            box_number, rounds, w0[0], w0[1], k0[0], k0[1], tweak[0], tweak[1], block[0], block[1],
            place, room,
        )
    }
}

pub fn decipher128(
    box_number: u64,
    rounds: u64,
    key: Key<u128>,
    tweak: u128,
    block: u128,
    out: &mut [u8],
) -> u64 {
    let [w0, k0, tweak, block] = [key.w0, key.k0, tweak, block].map(halves);
    let (place, room) = (out.as_mut_ptr(), out.len());
    unsafe {
        c::kk128_decipher(
            box_number, rounds, w0[0], w0[1], k0[0], k0[1], tweak[0], tweak[1], block[0], block[1],
            place, room,
        )
    }
}
