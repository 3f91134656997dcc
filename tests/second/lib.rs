//! The second program: QARMA-64 and QARMA-128 written from the paper alone, frames from document 01 alone, and what
//! is needed to compare the library's C functions with them.

use std::mem::ManuallyDrop;
use std::ptr;

pub mod calls;
pub mod changes;
pub mod ffi;
pub mod frame;
pub mod harness;
pub mod line;
pub mod listing;
pub mod pairs;
pub mod qarma;
pub mod qarma128;
pub mod rng;

/// The value itself, of which the compiler knows nothing any more. `std::hint::black_box` is younger
/// than some compilers that this is built with.
pub fn opaque<T>(value: T) -> T {
    let value = ManuallyDrop::new(value);
    // SAFETY: the value is moved out once, and not dropped here.
    unsafe { ptr::read_volatile(&*value) }
}
