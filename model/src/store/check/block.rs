//! Tables in range as the rules look at them.

use super::misread::Misread;
use super::named::{Named, Place};
use crate::set::{has, lies_in};
use crate::stamp::Stamp;
use crate::store::message::Message;
use crate::store::tables::{Client, Tables, WritePart, MIXED, WRITE};
use std::collections::BTreeMap;

/// A client's write under way, alone or in a mixed transaction.
pub(super) struct UnderWay {
    pub(super) client: u64,
    pub(super) part: WritePart,
}

/// A copy of a stamp's write set.
#[derive(Clone, Copy)]
pub(super) struct Held {
    pub(super) place: Place,
    pub(super) stamp: Stamp,
    pub(super) set: u64,
}

/// Tables in range, and what several rules look at; for tests alone with a rule misread.
pub(super) struct Block<'a> {
    pub(super) tables: &'a Tables,
    pub(super) misread: Option<Misread>,
    pub(super) named: Vec<Named>,
    pub(super) writes: Vec<UnderWay>,
    /// Of the versions alike in stamp and item the first one's value.
    pub(super) stored: BTreeMap<(Stamp, u64), u64>,
    /// By stamp: the items that versions of it are stored of.
    stored_items: BTreeMap<Stamp, u64>,
    /// Every copy of a stamp's write set, and by stamp some copy.
    pub(super) copies: Vec<Held>,
    sets: BTreeMap<Stamp, u64>,
}

impl<'a> Block<'a> {
    pub(super) fn new(tables: &'a Tables, misread: Option<Misread>) -> Block<'a> {
        let (mut stored, mut stored_items) = (BTreeMap::new(), BTreeMap::new());
        for version in &tables.versions {
            stored.entry((version.stamp, version.item)).or_insert(version.value);
            *stored_items.entry(version.stamp).or_default() |= 1 << version.item;
        }
        let mut block = Block {
            tables,
            misread,
            named: Vec::new(),
            writes: writes_under_way(tables),
            stored,
            stored_items,
            copies: Vec::new(),
            sets: BTreeMap::new(),
        };
        block.named = block.names();
        block.copies = block.sets_held();
        for copy in &block.copies {
            block.sets.entry(copy.stamp).or_insert(copy.set);
        }
        block
    }

    pub(super) fn is_misread(&self, misread: Misread) -> bool {
        self.misread == Some(misread)
    }

    /// Whether the rule looks at what stands there.
    pub(super) fn looks_at(&self, rule: u8, place: Place) -> bool {
        !self.is_misread(Misread::Free { rule, place })
    }

    /// Every copy of a stamp's write set: the stored versions', those of writes under way and of
    /// writes that ended last, mixed ones too, of what is named, and of prepares.
    fn sets_held(&self) -> Vec<Held> {
        let held = |place, stamp, set| Held { place, stamp, set };
        let versions = self.tables.versions.iter();
        let under_way = self.writes.iter();
        let named = self.named.iter();
        let prepares = self.tables.messages.iter();
        let copies = versions
            .map(|version| held(Place::Stored, version.stamp, version.set))
            .chain(under_way.map(|write| held(Place::UnderWay, write.part.stamp, write.part.set)))
            .chain(self.tables.existing_clients().filter_map(last_written))
            .chain(named.filter_map(|name| Some(held(name.place, name.stamp, name.set?))))
            .chain(prepares.filter_map(|message| match message {
                Message::Prepare(version) => Some(held(Place::Prepare, version.stamp, version.set)),
                _ => None,
            }));
        copies.collect()
    }

    pub(super) fn set_of(&self, stamp: Stamp) -> u64 {
        self.sets.get(&stamp).copied().unwrap_or(0)
    }

    pub(super) fn is_stored(&self, stamp: Stamp, item: u64) -> bool {
        self.stored_items.get(&stamp).is_some_and(|stored| has(*stored, item))
    }

    /// "Call a stamp whole if at least one version of it is stored, and all of its write set."
    pub(super) fn is_whole(&self, stamp: Stamp) -> bool {
        let stored = self.stored_items.get(&stamp).copied();
        let is_all_there = lies_in(self.set_of(stamp), stored.unwrap_or(0));
        match self.misread {
            Some(Misread::WholeByOne) => stored.is_some(),
            Some(Misread::WholeOfNone) => is_all_there,
            _ => stored.is_some() && is_all_there,
        }
    }
}

/// The stamp and the set of the write that the client ended last, if it was one or mixed.
fn last_written(client: &Client) -> Option<Held> {
    let (place, set) = match client.last.kind {
        WRITE => (Place::LastWrite, client.last.set),
        MIXED => (Place::LastMixed, client.last.write_set),
        _ => return None,
    };
    Some(Held { place, stamp: client.last.stamp, set })
}

fn writes_under_way(tables: &Tables) -> Vec<UnderWay> {
    let under_way = |client: u64| {
        let part = tables.client(client).write_under_way()?;
        Some(UnderWay { client, part })
    };
    (1..=tables.sizes.clients).filter_map(under_way).collect()
}
