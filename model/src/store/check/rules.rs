//! The first eight rules, one by one, in the ticket's order.

use super::block::{Block, Held, UnderWay};
use super::misread::Misread;
use super::named::{Named, Place};
use crate::set::{has, items};
use crate::stamp::Stamp;
use crate::store::message::Message;
use crate::store::tables::{Client, Version, SECOND_PART};
use std::collections::BTreeSet;

impl Block<'_> {
    /// 1: "Whole or initial is every stamp" that is named.
    pub(super) fn named_stamps_are_whole_or_initial(&self) -> bool {
        let mut named = self.named.iter().filter(|name| self.looks_at(1, name.place));
        named.all(|name| match name.stamp {
            Stamp::INITIAL => !self.is_misread(Misread::InitialRefused),
            stamp => self.is_whole(stamp),
        })
    }

    /// 2: "each not initial, a commit's apart, has its line in that set".
    pub(super) fn named_items_are_in_their_sets(&self) -> bool {
        let partitions_touched = self.tables.messages.iter().all(|message| match *message {
            Message::Commit { partition, stamp } => {
                items(self.set_of(stamp)).any(|item| self.tables.partition_of(item) == partition)
            }
            _ => true,
        });
        let mut named = self.named.iter().filter(|name| self.looks_at(2, name.place));
        let is_written =
            |name: &Named| name.item.is_none_or(|item| has(self.set_of(name.stamp), item));
        named.all(|name| name.stamp == Stamp::INITIAL || is_written(name))
            && (partitions_touched || !self.is_misread(Misread::CommitsTouch))
    }

    /// 3: "All copies of one stamp's set agree, the initial one's being empty."
    pub(super) fn copies_of_sets_agree(&self) -> bool {
        let is_looked_at = |copy: &Held| match copy.place {
            Place::Prepare => !self.is_misread(Misread::PreparedSetsFree),
            place => self.looks_at(3, place),
        };
        self.copies.iter().copied().filter(is_looked_at).all(
            |Held { stamp, set, .. }| match stamp {
                Stamp::INITIAL => set == 0 || self.is_misread(Misread::InitialSetsFree),
                _ => set == self.set_of(stamp),
            },
        )
    }

    /// 4: "No two stored versions are alike in line and stamp."
    pub(super) fn no_two_versions_are_alike(&self) -> bool {
        let versions = &self.tables.versions;
        match self.misread {
            Some(Misread::TwoAlike) => true,
            Some(Misread::OneOfAStamp) => {
                let stamps: BTreeSet<Stamp> = versions.iter().map(|of| of.stamp).collect();
                stamps.len() == versions.len()
            }
            _ => self.stored.len() == versions.len(),
        }
    }

    /// 5: "Each such got or first reply holds its version's value", one that is kept until its
    /// item's second answer has come. The initial version's is 0; where there is no such version, 1
    /// or 2 is broken.
    pub(super) fn replies_hold_their_versions_values(&self) -> bool {
        let holds = |item: u64, stamp: Stamp, value: u64| match stamp {
            Stamp::INITIAL => value == 0 || self.is_misread(Misread::InitialValuesFree),
            _ => self.stored.get(&(stamp, item)).is_none_or(|stored| *stored == value),
        };
        let of_version = |version: &Version| holds(version.item, version.stamp, version.value);
        let in_flight = self.tables.messages.iter().all(|message| match message {
            Message::Got { version, .. } => {
                self.is_misread(Misread::GotValuesFree) || of_version(version)
            }
            Message::FirstReply { version, .. } => {
                self.is_misread(Misread::FirstValuesFree) || of_version(version)
            }
            _ => true,
        });
        let kept = self.tables.existing_clients().all(|client| {
            items(client.first_replied()).filter(|item| self.is_still_held(client, *item)).all(
                |item| {
                    let place = item as usize;
                    holds(item, client.firsts[place].stamp, client.values[place])
                },
            )
        });
        in_flight && (kept || self.is_misread(Misread::KeptValuesFree))
    }

    /// A kept first reply's value stands there still. A second answer has come where the second
    /// part asked for another stamp than the first reply's and awaits it no longer.
    fn is_still_held(&self, client: &Client, item: u64) -> bool {
        let is_asked_again = client.stamps[item as usize] != client.firsts[item as usize].stamp;
        let is_second = client.mode == SECOND_PART;
        let is_awaited = has(client.awaited, item);
        match self.misread {
            Some(Misread::SecondAnswerHeld) => true,
            Some(Misread::AwaitedAgainFree) => !(is_second && is_asked_again),
            Some(Misread::SecondPartFree) => !is_second || is_awaited,
            Some(Misread::FirstPartFree) => is_second && (!is_asked_again || is_awaited),
            _ => !(is_second && is_asked_again && !is_awaited),
        }
    }

    /// 6: "No stamp's number is above its desk's count."
    pub(super) fn no_number_is_above_its_count(&self) -> bool {
        let is_counted = |stamp: Stamp| {
            let count = self.tables.client(stamp.client).count;
            match self.misread {
                Some(Misread::CountedOneMore) => stamp.number <= count + 1,
                Some(Misread::CountedBelow) => stamp.number < count,
                _ => stamp.number <= count,
            }
        };
        let named = self.named.iter().map(|name| (name.place, name.stamp));
        let copied = self.copies.iter().map(|copy| (copy.place, copy.stamp));
        let prepared = self.tables.messages.iter().filter_map(|message| match *message {
            Message::Prepared { stamp, .. } => Some((Place::Prepared, stamp)),
            _ => None,
        });
        let mut all = named.chain(copied).chain(prepared);
        all.all(|(place, stamp)| {
            stamp == Stamp::INITIAL || is_counted(stamp) || !self.looks_at(6, place)
        })
    }

    /// 7: "A write under way is stamped with its own desk and count".
    pub(super) fn writes_have_their_client_and_count(&self) -> bool {
        self.writes.iter().all(|write| {
            let count = self.tables.client(write.client).count;
            let Stamp { number, client } = write.part.stamp;
            match self.misread {
                Some(Misread::BelowItsCount) => client == write.client && number <= count,
                Some(Misread::OthersStamp) => number == count,
                _ => write.part.stamp == Stamp::new(count, write.client),
            }
        })
    }

    /// 8: "its lines no longer awaited, or with a prepared reply in the pile, are stored, and
    /// stored ones hold its values".
    pub(super) fn what_has_arrived_is_stored(&self) -> bool {
        self.writes.iter().all(|UnderWay { part: write, .. }| {
            let stamp = write.stamp;
            let has_arrived = |item: u64| match self.misread {
                Some(Misread::ArrivedUnstored) => false,
                _ => !has(write.awaited, item),
            };
            let is_replied = |item: u64| match self.misread {
                Some(Misread::RepliedUnstored) => false,
                _ => self.tables.messages.contains(&Message::Prepared { item, stamp }),
            };
            let holds_its_value = |item: u64| match self.stored.get(&(stamp, item)) {
                Some(value) => {
                    self.is_misread(Misread::StoredValuesFree)
                        || *value == write.values[item as usize]
                }
                None => !(has_arrived(item) || is_replied(item)),
            };
            items(write.set).all(holds_its_value)
        })
    }
}
