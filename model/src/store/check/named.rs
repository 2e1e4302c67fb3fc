//! Where stamps are named that have to be whole or initial.

use super::block::Block;
use super::misread::Misread;
use crate::set::items;
use crate::stamp::{Entry, Stamp};
use crate::store::message::Message;
use crate::store::tables::{
    Client, Version, FIRST_PART, IDLE, ITEMS, MIXING, READING, SECOND_PART, WRITE,
};

/// Where a stamp is named that has to be whole or initial, or a copy of its write set held.
#[derive(Clone, Copy, Debug, PartialEq, Eq)]
pub enum Place {
    View,
    Latest,
    Commit,
    Get,
    Got,
    LatestOfGot,
    FirstReply,
    LatestOfFirstReply,
    KeptInTheFirstPart,
    KeptInTheSecondPart,
    Stored,
    UnderWay,
    /// A write that ended last, and a mixed transaction that did.
    LastWrite,
    LastMixed,
    Prepare,
    Prepared,
}

/// A stamp that is named, the item that it is named for (of a commit none), and the copy of its
/// write set that stands there, if one does.
pub(super) struct Named {
    pub(super) place: Place,
    pub(super) stamp: Stamp,
    pub(super) item: Option<u64>,
    pub(super) set: Option<u64>,
}

impl Named {
    fn entry(place: Place, item: u64, entry: Entry) -> Named {
        Named { place, stamp: entry.stamp, item: Some(item), set: Some(entry.set) }
    }
}

impl Block<'_> {
    /// "Every stamp in a view, a latest, a commit, a get or a got in the pile, or a first reply in
    /// the pile or kept by a read under way (answers kept from gots, or by a read that has ended,
    /// are free)". A got and a first reply have two, their version's and their latest's.
    pub(super) fn names(&self) -> Vec<Named> {
        let tables = self.tables;
        let items_of = |row: &[Entry; ITEMS], place: Place| {
            let entries = (0..tables.sizes.items).zip(*row);
            entries.map(|(item, entry)| Named::entry(place, item, entry)).collect::<Vec<Named>>()
        };
        let mut named = items_of(&tables.latest, Place::Latest);
        for client in 1..=tables.sizes.clients {
            if client == 1 || !self.is_misread(Misread::OtherViewsFree) {
                named.extend(items_of(tables.view(client), Place::View));
            }
            let record = tables.client(client);
            let kept = match record.mode {
                FIRST_PART => Place::KeptInTheFirstPart,
                _ => Place::KeptInTheSecondPart,
            };
            let firsts = items(record.first_replied()).zip(record.first_replies());
            named.extend(firsts.map(|(item, first)| Named::entry(kept, item, first)));
            named.extend(self.names_of_answers(record));
        }
        for message in &tables.messages {
            match *message {
                Message::Commit { stamp, .. } => {
                    named.push(Named { place: Place::Commit, stamp, item: None, set: None });
                }
                Message::Get { item, stamp, .. } => {
                    named.push(Named { place: Place::Get, stamp, item: Some(item), set: None });
                }
                Message::Got { version, latest, .. } => {
                    named.push(Named::entry(Place::Got, version.item, entry_of(version)));
                    named.push(Named::entry(Place::LatestOfGot, version.item, latest));
                }
                Message::FirstReply { version, latest, .. } => {
                    named.push(Named::entry(Place::FirstReply, version.item, entry_of(version)));
                    named.push(Named::entry(Place::LatestOfFirstReply, version.item, latest));
                }
                Message::Prepare(_) | Message::Prepared { .. } | Message::FirstGet { .. } => (),
            }
        }
        named
    }

    /// For tests alone: answers that are free, looked at all the same.
    fn names_of_answers(&self, record: &Client) -> Vec<Named> {
        let (set, stamps) = match (self.misread, record.mode) {
            (Some(Misread::EndedReadsHeld), _) if ![0, WRITE].contains(&record.last.kind) => {
                (record.last.set, &record.last.stamps)
            }
            (Some(Misread::AnswersHeld), READING | SECOND_PART | MIXING) => {
                (record.set & !record.awaited, &record.stamps)
            }
            (Some(Misread::IdleHeld), IDLE) => (record.set, &record.stamps),
            _ => return Vec::new(),
        };
        let named = |item: u64| Named {
            place: Place::Get,
            stamp: stamps[item as usize],
            item: Some(item),
            set: None,
        };
        items(set).map(named).collect()
    }
}

fn entry_of(version: Version) -> Entry {
    Entry::new(version.stamp, version.set)
}
