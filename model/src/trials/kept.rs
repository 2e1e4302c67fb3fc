//! Blocks that calls may not have made: tables from the middle of a run with a few things changed,
//! each of which breaks a rule of the check, or none.

mod amiss;
mod begun;
mod clients;
mod messages;

use crate::layout::{decode, encode};
use crate::random::Random;
use crate::runs::{tables_amid, Sort};
use crate::set::items;
use crate::stamp::{Entry, Stamp};
use crate::store::message::Message;
use crate::store::range::is_usable;
use crate::store::tables::{
    Client, Tables, Version, ITEMS, LOAD_CAPACITY, MIXED, MIXING, VERSION_CAPACITY, WRITE, WRITING,
};

/// The tables of a seed, in the place of those of a run: clients have something else under way, and
/// there are at most so many changes, of which hardly any leaves a field out of range.
pub(super) fn kept(sort: Sort, seed: u64, changes: u64) -> Tables {
    let mut random = Random::new(seed);
    let tables = tables_amid(sort, random.number());
    let mut maker = Maker { random, tables };
    for client in 1..=maker.tables.sizes.clients {
        if maker.random.percent(60) {
            maker.make(|maker| {
                maker.abandon(client);
                maker.begin(client);
            });
        }
    }
    let changes = maker.random.pick(&[0, 1, 1, 1, 1, 1, 2, changes]);
    for _ in 0..changes {
        if let Some(damaged) = maker.make(Maker::change) {
            return damaged;
        }
    }
    fields_of(&maker.tables).expect("there is a block of tables in range")
}

/// The tables with initial values in what is no field of theirs, if there is a block of them.
fn fields_of(tables: &Tables) -> Option<Tables> {
    let fit = tables.versions.len() as u64 <= VERSION_CAPACITY
        && tables.messages.len() as u64 <= LOAD_CAPACITY;
    fit.then(|| decode(&encode(tables))).flatten()
}

struct Maker {
    random: Random,
    tables: Tables,
}

impl Maker {
    /// Makes a change, unless it leaves a field out of range; now and then that is what it gives.
    fn make(&mut self, change: impl FnOnce(&mut Maker)) -> Option<Tables> {
        let before = self.tables.clone();
        change(self);
        if is_usable(&self.tables) {
            return None;
        }
        let damaged = std::mem::replace(&mut self.tables, before);
        fields_of(&damaged).filter(|_| self.random.percent(5))
    }

    /// One thing is another.
    fn change(&mut self) {
        match self.random.below(22) {
            0 | 1 => self.change_entry(),
            2 | 3 => self.change_versions(),
            4 => self.change_everywhere(),
            5..11 => self.change_client(),
            11..16 => self.change_messages(),
            _ => self.put_amiss(),
        }
    }

    /// A view's or a latest: another entry, or the same with another set.
    fn change_entry(&mut self) {
        let item = self.item();
        let place = item as usize;
        let client = self.random.below(self.tables.sizes.clients + 1);
        let present = match client {
            0 => self.tables.latest[place],
            _ => self.tables.view(client)[place],
        };
        let entry = self.another_entry(item, present);
        match client {
            0 => self.tables.latest[place] = entry,
            _ => self.tables.view_mut(client)[place] = entry,
        }
    }

    /// A version goes, comes twice, or is another; or one comes of a stamp that nothing else has.
    fn change_versions(&mut self) {
        if self.tables.versions.is_empty() {
            return;
        }
        let place = self.random.place(self.tables.versions.len());
        let version = self.tables.versions[place];
        match self.random.below(8) {
            0 | 1 => drop(self.tables.versions.remove(place)),
            2 => self.tables.versions.push(version),
            3 => {
                let stamp = Stamp::new(self.random.between(1, 4), self.client());
                let set = self.set() | 1 << version.item;
                self.tables.versions.push(Version { stamp, set, ..version });
            }
            4 => {
                let other = self.random.place(self.tables.versions.len());
                self.tables.versions.swap(place, other);
            }
            5 => {
                let toggled = 1 << self.item();
                let all = self.tables.versions.iter_mut().filter(|of| of.stamp == version.stamp);
                all.for_each(|of| of.set ^= toggled);
            }
            _ => self.tables.versions[place] = self.another_version(version),
        }
    }

    /// In every place a stamp becomes another, or its set gains or loses an item.
    fn change_everywhere(&mut self) {
        let from = self.some_stamp();
        if from == Stamp::INITIAL {
            return;
        }
        let toggled = 1 << self.item();
        let to = match self.random.below(4) {
            0 => Stamp::new(from.number, self.client()),
            1 => Stamp::new(from.number + 1, from.client),
            2 => Stamp::new((from.number - 1).max(1), from.client),
            _ => from,
        };
        let changed = |stamp: &mut Stamp, set: Option<&mut u64>| {
            if *stamp == from {
                *stamp = to;
                if let (Some(set), true) = (set, to == from) {
                    *set ^= toggled;
                }
            }
        };
        self.each_stamp(changed);
    }

    /// Visits every stamp that a rule looks at, with its set where there is one.
    fn each_stamp(&mut self, mut visit: impl FnMut(&mut Stamp, Option<&mut u64>)) {
        let tables = &mut self.tables;
        let entries = tables.latest.iter_mut().chain(tables.view.iter_mut().flatten());
        entries.for_each(|entry| visit(&mut entry.stamp, Some(&mut entry.set)));
        for version in &mut tables.versions {
            visit(&mut version.stamp, Some(&mut version.set));
        }
        for client in tables.clients.iter_mut() {
            each_stamp_of_client(client, &mut visit);
        }
        for message in &mut tables.messages {
            match message {
                Message::Prepare(version) => visit(&mut version.stamp, Some(&mut version.set)),
                Message::Got { version, latest, .. }
                | Message::FirstReply { version, latest, .. } => {
                    visit(&mut version.stamp, Some(&mut version.set));
                    visit(&mut latest.stamp, Some(&mut latest.set));
                }
                Message::Prepared { stamp, .. }
                | Message::Commit { stamp, .. }
                | Message::Get { stamp, .. } => visit(stamp, None),
                Message::FirstGet { .. } => (),
            }
        }
    }

    fn another_entry(&mut self, item: u64, present: Entry) -> Entry {
        let of_item: Vec<Version> =
            self.tables.versions.iter().filter(|of| of.item == item).copied().collect();
        match self.random.below(8) {
            0 => Entry::INITIAL,
            1..4 if !of_item.is_empty() => entry_of(self.random.pick(&of_item)),
            4 if !self.tables.versions.is_empty() => {
                let versions = &self.tables.versions;
                entry_of(versions[self.random.place(versions.len())])
            }
            5 => Entry::new(present.stamp, present.set ^ 1 << self.item()),
            6 => self.under_way().unwrap_or(Entry::INITIAL),
            _ => Entry::new(self.some_stamp(), self.set() | 1 << item),
        }
    }

    fn another_version(&mut self, version: Version) -> Version {
        let initial = Version { value: 0, stamp: Stamp::INITIAL, set: 0, ..version };
        let alike: Vec<Version> =
            self.tables.versions.iter().filter(|of| of.item == version.item).copied().collect();
        match self.random.below(7) {
            0 => Version { value: self.random.below(1 << 32), ..version },
            1 => Version { set: version.set ^ 1 << self.item(), ..version },
            2 => Version { item: self.item(), ..version },
            3 => Version { stamp: self.some_stamp(), ..version },
            4 if !alike.is_empty() => self.random.pick(&alike),
            5 if !self.tables.versions.is_empty() => {
                let versions = &self.tables.versions;
                let other = versions[self.random.place(versions.len())];
                Version { item: version.item, ..other }
            }
            _ => initial,
        }
    }

    /// Of a stored version, mostly of the item; of a write under way; or initial.
    fn another_stamp(&mut self, item: u64) -> Stamp {
        self.another_entry(item, Entry::INITIAL).stamp
    }

    /// The entry of some write under way.
    fn under_way(&mut self) -> Option<Entry> {
        let writes = self.tables.existing_clients().filter_map(Client::write_under_way);
        let entries: Vec<Entry> = writes.map(|part| Entry::new(part.stamp, part.set)).collect();
        (!entries.is_empty()).then(|| self.random.pick(&entries))
    }

    /// Mostly one that is stored or under way.
    fn some_stamp(&mut self) -> Stamp {
        let versions = &self.tables.versions;
        match self.random.below(8) {
            0 => Stamp::INITIAL,
            1 => Stamp::new(self.random.between(1, 4), self.client()),
            2 | 3 => self.under_way().unwrap_or_default().stamp,
            _ if versions.is_empty() => Stamp::INITIAL,
            _ => versions[self.random.place(versions.len())].stamp,
        }
    }

    fn item(&mut self) -> u64 {
        self.random.below(self.tables.sizes.items)
    }

    fn client(&mut self) -> u64 {
        self.random.between(1, self.tables.sizes.clients)
    }

    fn set(&mut self) -> u64 {
        self.random.number() & (u64::MAX >> (ITEMS as u64 - self.tables.sizes.items))
    }
}

fn entry_of(version: Version) -> Entry {
    Entry::new(version.stamp, version.set)
}

/// Visits the stamps of the client's transactions, with their sets where it wrote.
fn each_stamp_of_client(client: &mut Client, visit: &mut impl FnMut(&mut Stamp, Option<&mut u64>)) {
    if client.mode == WRITING {
        let (stamps, set) = (&mut client.stamps, &mut client.set);
        let first = set.trailing_zeros() as usize;
        let mut stamp = stamps[first];
        visit(&mut stamp, Some(set));
        items(*set).for_each(|item| stamps[item as usize] = stamp);
        client.awaited &= client.set;
    } else {
        client.stamps.iter_mut().for_each(|stamp| visit(stamp, None));
    }
    let kept = items(client.first_replied());
    kept.for_each(|item| {
        let first = &mut client.firsts[item as usize];
        visit(&mut first.stamp, Some(&mut first.set));
    });
    if client.mode == MIXING {
        visit(&mut client.write.stamp, Some(&mut client.write.set));
        client.write.awaited &= client.write.set;
    }
    match client.last.kind {
        WRITE => visit(&mut client.last.stamp, Some(&mut client.last.set)),
        MIXED => visit(&mut client.last.stamp, Some(&mut client.last.write_set)),
        _ => (),
    }
}
