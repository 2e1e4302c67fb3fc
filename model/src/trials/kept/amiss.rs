//! One thing is amiss that one rule of the check speaks of, in one place, with all else as it was.

use super::messages::before;
use super::{entry_of, Maker};
use crate::set::{has, items};
use crate::stamp::{Entry, Stamp};
use crate::store::message::{Message, FIRST_REPLY, GET, GOT, PREPARE};
use crate::store::tables::{Version, WritePart, MIXED, MIXING, SECOND_PART, WRITE};

impl Maker {
    /// What few blocks have comes first, since views are in every block.
    pub(super) fn put_amiss(&mut self) {
        let ways = [
            |maker: &mut Maker| maker.name_amiss_in_a_reply(FIRST_REPLY),
            Maker::name_amiss_in_kept,
            Maker::stamp_of_another_client,
            Maker::set_of_stored,
            Maker::prepare_of_another_stamp,
            Maker::name_amiss_in_a_get,
            |maker: &mut Maker| maker.name_amiss_in_a_reply(GOT),
            Maker::last_not_counted,
        ];
        for way in ways {
            if self.random.once_in(3) && way(self).is_some() {
                return;
            }
        }
        self.name_amiss_in_views();
    }

    /// In a view or among the latest.
    fn name_amiss_in_views(&mut self) {
        let item = self.item();
        let client = self.random.below(self.tables.sizes.clients + 1);
        let present = match client {
            0 => self.tables.latest[item as usize],
            _ => self.tables.view(client)[item as usize],
        };
        let entry = self.entry_amiss(item, present);
        match client {
            0 => self.tables.latest[item as usize] = entry,
            _ => self.tables.view_mut(client)[item as usize] = entry,
        }
    }

    /// In a first reply that is kept, with the value that its version has.
    fn name_amiss_in_kept(&mut self) -> Option<()> {
        let clients = 1..=self.tables.sizes.clients;
        let kept = |client: u64| {
            let of_client = items(self.tables.client(client).first_replied());
            of_client.map(move |item| (client, item))
        };
        let kept: Vec<(u64, u64)> = clients.flat_map(kept).collect();
        let (client, item) = self.some(&kept)?;
        let present = self.tables.client(client).firsts[item as usize];
        let entry = self.entry_amiss(item, present);
        let value = self.value(item, entry.stamp);
        let record = self.tables.client_mut(client);
        let is_awaited = has(record.awaited, item);
        // In the second part a second answer may have come in place of the value.
        if record.mode == SECOND_PART && !is_awaited {
            record.stamps[item as usize] = entry.stamp;
        }
        (record.firsts[item as usize], record.values[item as usize]) = (entry, value);
        Some(())
    }

    /// In a got or first reply in flight: as its version, with the value that this has, or as its
    /// latest. A got's client asks for it.
    fn name_amiss_in_a_reply(&mut self, kind: u64) -> Option<()> {
        let place = self.some_message(kind)?;
        let mut message = self.tables.messages[place];
        let is_latest = self.random.percent(50);
        if let Message::Got { client, version, latest }
        | Message::FirstReply { client, version, latest } = &mut message
        {
            let item = version.item;
            if is_latest {
                *latest = self.entry_amiss(item, *latest);
            } else {
                let Entry { stamp, set } = self.entry_amiss(item, entry_of(*version));
                *version = Version { item, value: self.value(item, stamp), stamp, set };
                self.tables.client_mut(*client).stamps[item as usize] = stamp;
            }
        }
        self.tables.messages[place] = message;
        Some(())
    }

    /// In a get in flight, and its client asks for it.
    fn name_amiss_in_a_get(&mut self) -> Option<()> {
        let place = self.some_message(GET)?;
        if let Message::Get { client, item, stamp } = self.tables.messages[place] {
            let stamp = self.entry_amiss(item, Entry::new(stamp, 0)).stamp;
            self.tables.client_mut(client).stamps[item as usize] = stamp;
            self.tables.messages[place] = Message::Get { client, item, stamp };
        }
        Some(())
    }

    /// A prepare has its client's stamp before the write's.
    fn prepare_of_another_stamp(&mut self) -> Option<()> {
        let place = self.some_message(PREPARE)?;
        if let Message::Prepare(Version { stamp, .. }) = &mut self.tables.messages[place] {
            *stamp = before(*stamp);
        }
        Some(())
    }

    /// The place of a message of this kind.
    fn some_message(&mut self, kind: u64) -> Option<usize> {
        let messages = self.tables.messages.iter().enumerate();
        let of_kind = messages.filter(|(_, message)| message.kind() == kind);
        let places: Vec<usize> = of_kind.map(|(place, _)| place).collect();
        self.some(&places)
    }

    fn some<T: Copy>(&mut self, choices: &[T]) -> Option<T> {
        (!choices.is_empty()).then(|| self.random.pick(choices))
    }

    /// Of a write that isn't whole; of a whole one that didn't write the item; or with another set.
    fn entry_amiss(&mut self, item: u64, present: Entry) -> Entry {
        let of_another_item = |of: &&Version| !has(of.set, item) && self.is_whole(of);
        let others = self.tables.versions.iter().filter(of_another_item);
        let others: Vec<Version> = others.copied().collect();
        match self.random.below(3) {
            0 => self.store_in_part(item),
            1 if !others.is_empty() => entry_of(self.random.pick(&others)),
            _ => Entry::new(present.stamp, present.set ^ 1 << self.item()),
        }
    }

    /// The entry of a write of the item and another that isn't whole: a client's next, which has
    /// arrived at one of them.
    fn store_in_part(&mut self, item: u64) -> Entry {
        let (client, sibling) = (self.client(), self.item());
        let record = self.tables.client_mut(client);
        if record.write_under_way().is_none() {
            record.count += 1;
        }
        let stamp = Stamp::new(record.count, client);
        let set = 1 << item | 1 << sibling;
        let stored = self.random.pick(&[item, sibling]);
        self.tables.versions.push(Version { item: stored, value: 5, stamp, set });
        Entry::new(stamp, set)
    }

    /// The value of the item's version; 0 where there is none.
    fn value(&self, item: u64, stamp: Stamp) -> u64 {
        self.tables.version(item, stamp).map_or(0, |version| version.value)
    }

    /// A write under way has another client's stamp everywhere, with its own client's count, and
    /// that client has counted as far. In a mixed transaction all that is written has arrived, so
    /// that no message tells whose the write is.
    fn stamp_of_another_client(&mut self) -> Option<()> {
        let (client, part) = self.some_write()?;
        let other = self.client();
        let WritePart { stamp: from, set, .. } = part;
        let to = Stamp::new(from.number, other);
        let record = self.tables.client_mut(other);
        if record.write_under_way().is_some() {
            return None;
        }
        record.count = record.count.max(to.number);
        if self.tables.client(client).mode == MIXING {
            for item in items(set) {
                let value = part.values[item as usize];
                if self.tables.version(item, from).is_none() {
                    self.tables.versions.push(Version { item, value, stamp: from, set });
                }
            }
            let is_of_write = |of: &Message| {
                matches!(of, Message::Prepare(_) | Message::Prepared { .. })
                    && of.parts().stamp == Some(from)
            };
            self.tables.messages.retain(|message| !is_of_write(message));
            self.tables.client_mut(client).write.awaited = 0;
        }
        self.each_stamp(|stamp, _| {
            if *stamp == from {
                *stamp = to;
            }
        });
        Some(())
    }

    /// What is stored of a write under way has an item more or less in its sets than its client's
    /// record.
    fn set_of_stored(&mut self) -> Option<()> {
        let (_, part) = self.some_write()?;
        let item = self.item();
        for version in self.tables.versions.iter_mut().filter(|of| of.stamp == part.stamp) {
            if version.item != item {
                version.set ^= 1 << item;
            }
        }
        Some(())
    }

    /// A write that ended last, alone or in a mixed transaction, has a number that nobody has
    /// counted.
    fn last_not_counted(&mut self) -> Option<()> {
        let (client, other) = (self.client(), self.client());
        let number = self.tables.client(other).count + 1;
        let last = &mut self.tables.client_mut(client).last;
        last.stamp = Stamp::new(number, other);
        [WRITE, MIXED].contains(&last.kind).then_some(())
    }

    /// A client's write under way.
    fn some_write(&mut self) -> Option<(u64, WritePart)> {
        let clients = 1..=self.tables.sizes.clients;
        let write = |client| Some((client, self.tables.client(client).write_under_way()?));
        let writes: Vec<(u64, WritePart)> = clients.filter_map(write).collect();
        self.some(&writes)
    }

    /// The version's write is stored on all its items.
    pub(super) fn is_whole(&self, of: &Version) -> bool {
        items(of.set).all(|sibling| self.tables.version(sibling, of.stamp).is_some())
    }
}
