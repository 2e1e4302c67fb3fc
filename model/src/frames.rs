//! Frames as lines of text: the hexadecimal digits, the log frames, the store frames.

pub mod hex;
pub mod log;
pub mod store;
