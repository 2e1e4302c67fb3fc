//! What a client has seen last of each item, followed from the deliveries.

use crate::set::has;
use crate::stamp::Entry;
use crate::store::tables::ITEMS;
use std::collections::BTreeMap;

/// By item the write seen last; initial where there is none.
#[derive(Clone, Debug, Default)]
pub(super) struct View(BTreeMap<u64, Entry>);

impl View {
    /// What a block held, by item.
    pub(super) fn of(entries: &[Entry; ITEMS]) -> View {
        View((0..).zip(*entries).collect())
    }

    /// The item's entry becomes the later of itself and this one; with equal stamps it stays.
    pub(super) fn see(&mut self, item: u64, entry: Entry) {
        let seen = self.0.entry(item).or_default();
        if entry.stamp > seen.stamp {
            *seen = entry;
        }
    }

    /// Each entry becomes the later of itself and the giver's.
    pub(super) fn take_over(&mut self, giver: &View) {
        for (item, entry) in &giver.0 {
            self.see(*item, *entry);
        }
    }

    /// What a read asks for: the latest among the item's own entry and all entries whose write set
    /// contains it.
    pub(super) fn choice(&self, item: u64) -> Entry {
        let entries = self.0.iter();
        let named = entries.filter(|(of, entry)| **of == item || has(entry.set, item));
        named.map(|(_, entry)| *entry).max_by_key(|entry| entry.stamp).unwrap_or_default()
    }

    /// The greatest number in it.
    pub(super) fn greatest_number(&self) -> u64 {
        self.0.values().map(|entry| entry.stamp.number).max().unwrap_or_default()
    }
}
