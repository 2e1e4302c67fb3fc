//! The tables as the words of a lent block, and back.
//!
//! Written from docs/LAYOUT.md alone. A stamp is one word, its number times 16 and its client
//! added.

mod after;
mod decode;
mod fields;
pub mod places;
mod sort;

pub use after::{store_fresh, store_step};
pub use decode::{decode, is_valid};
pub use fields::{encode, fields, Field};
pub use places::NEEDED;
pub use sort::Sort;

use crate::stamp::Stamp;

/// The half of a word that a mixed transaction has its answer in, and the half with what it writes.
const READ_HALF: u64 = u32::MAX as u64;
const WRITTEN_HALF: u64 = !READ_HALF;

fn halves_word(read: u64, written: u64) -> u64 {
    written << 32 | read
}

/// The answer and the value written.
fn halves_of(word: u64) -> (u64, u64) {
    (word & READ_HALF, word >> 32)
}

fn stamp_word(stamp: Stamp) -> u64 {
    stamp.number * 16 + stamp.client
}

fn stamp_of(word: u64) -> Stamp {
    Stamp::new(word / 16, word % 16)
}
