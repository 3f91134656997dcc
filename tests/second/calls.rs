//! Each C function as a call: how the library is called, and what the second program says of it.

pub mod blocks;
pub mod frames;
pub mod lines;
