//! A lent block that is as it was before each timed step.

use koolvent_model::frames::log::MOST_BYTES;
use std::hint::black_box;

/// A block, room for what is shown, and the words that a step changes, as they were before it.
pub struct Lent {
    pub block: Vec<u64>,
    pub output: [u8; MOST_BYTES],
    before: Vec<(usize, u64)>,
}

impl Lent {
    /// The block, for a step that makes `after` of it.
    pub fn new(block: &[u64], after: &[u64]) -> Lent {
        let changed = (0..block.len()).filter(|place| block[*place] != after[*place]);
        Lent {
            block: block.to_vec(),
            output: [0; MOST_BYTES],
            before: changed.map(|place| (place, block[place])).collect(),
        }
    }

    pub fn undo(&mut self) {
        for (place, word) in &self.before {
            self.block[*place] = *word;
        }
        black_box(&mut self.block);
    }
}
