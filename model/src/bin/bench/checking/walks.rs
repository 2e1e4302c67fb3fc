//! How long it takes the check to find a key, as crate index finds it: by the links of a slot, and
//! then by the key's digits.

const SLOTS: u64 = 512;

/// The base of the digits, as crate index has it.
const BASE: u64 = 8;

/// The slot of a key, as crate index has it.
pub fn slot_of(key: u64) -> u64 {
    key % (1 << 32) * 2_654_435_769 / (1 << 23) % SLOTS
}

/// The keys that were added, and the links from slots and from below keys to them.
#[derive(Default)]
pub struct Walks {
    keys: Vec<u64>,
    links: std::collections::HashMap<(usize, u64), usize>,
}

impl Walks {
    /// How many links the key's walk has once it is added.
    pub fn add(&mut self, key: u64) -> usize {
        let mut at = (usize::MAX, slot_of(key));
        let (mut rest, mut length) = (key, 1);
        while let Some(&place) = self.links.get(&at) {
            if self.keys[place] == key {
                return length;
            }
            at = (place, rest % BASE);
            rest /= BASE;
            length += 1;
        }
        self.links.insert(at, self.keys.len());
        self.keys.push(key);
        length
    }
}
