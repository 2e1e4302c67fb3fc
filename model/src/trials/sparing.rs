//! Blocks whose versions are each named in one place, or in none: what a clearing tells apart.

use super::Busy;
use crate::layout::places;
use crate::random::Random;
use crate::set::items;
use crate::stamp::{Entry, Stamp};
use crate::store::message::Message;
use crate::store::tables::{
    Client, Ended, Sizes, Tables, Version, WritePart, FAST_READ, FIRST_PART, IDLE, ITEMS, MIXED,
    MIXING, READ, READING, SECOND_PART, WRITE, WRITING,
};

/// The block of a seed. Words that are no field often hold the stamp of a stored version.
pub(super) fn sparing(seed: u64) -> Busy {
    let mut random = Random::new(seed);
    let sizes = Sizes::new(random.between(1, 8), random.between(1, 8), random.between(1, 64));
    let mut maker = Maker { random, tables: Tables::fresh(sizes) };
    let most = maker.random.pick(&[1, 3, 20]);
    for _ in 0..maker.random.between(1, 24) {
        maker.write(most);
    }
    let mut busy = Busy::holding(maker.tables, seed);
    let stored = 0..busy.tables.versions.len();
    let stamps: Vec<u64> = stored.map(|place| busy.words[places::version(place) + 2]).collect();
    let mut fields = busy.fields.iter().map(|field| field.place).peekable();
    for (place, word) in busy.words.iter_mut().enumerate() {
        if fields.next_if_eq(&place).is_none() && maker.random.once_in(4) {
            *word = maker.random.pick(&stamps);
        }
    }
    busy
}

struct Maker {
    random: Random,
    tables: Tables,
}

impl Maker {
    /// At most so many versions of one stamp, anywhere among those stored, and its stamp in one
    /// place. Numbers often differ by a power of two, so that they share a place in tables of
    /// stamps.
    fn write(&mut self, most: u64) {
        let apart = 1 << self.random.between(5, 20);
        let number = self.random.between(1, 12) + self.random.below(3) * apart;
        let stamp = Stamp::new(number, self.client());
        for _ in 0..self.random.between(1, most) {
            let version = self.version(stamp);
            let place = self.random.place(self.tables.versions.len() + 1);
            self.tables.versions.insert(place, version);
        }
        self.put(stamp);
    }

    /// Puts the stamp in a view, a latest, a message of each kind, a write under way; in a client's
    /// transaction that doesn't count; or nowhere.
    fn put(&mut self, stamp: Stamp) {
        let entry = Entry::new(stamp, self.set());
        let (client, item) = (self.client(), self.random.below(self.tables.sizes.items));
        let version = self.version(stamp);
        let initial = Version { stamp: Stamp::INITIAL, ..version };
        let partition = self.random.below(self.tables.sizes.partitions);
        let message = match self.random.below(22) {
            0 => {
                self.tables.view_mut(client)[item as usize] = entry;
                return;
            }
            1 => {
                self.tables.latest[item as usize] = entry;
                return;
            }
            2 => Message::Prepare(version),
            3 => Message::Prepared { item, stamp },
            4 => Message::Commit { partition, stamp },
            5 => Message::Get { client, item, stamp },
            6 => Message::Got { client, version, latest: Entry::INITIAL },
            7 => Message::Got { client, version: initial, latest: entry },
            8 => Message::FirstReply { client, version, latest: Entry::INITIAL },
            9 => Message::FirstReply { client, version: initial, latest: entry },
            10..20 => {
                let record = self.record(stamp);
                *self.tables.client_mut(client) = record;
                return;
            }
            _ => return,
        };
        self.tables.messages.push(message);
    }

    /// A client that writes with the stamp, asks for it, keeps it of a first reply, or has ended
    /// with it.
    fn record(&mut self, stamp: Stamp) -> Client {
        let set = self.set();
        let mut firsts = [Entry::INITIAL; ITEMS];
        let mut stamps = [Stamp::INITIAL; ITEMS];
        items(set).for_each(|item| stamps[item as usize] = stamp);
        let running = Client { set, stamps, ..Client::INITIAL };
        let kind = self.random.pick(&[READ, FAST_READ, MIXED]);
        let read = Ended { kind, set, stamps, ..Ended::NONE };
        let kind = self.random.pick(&[WRITE, MIXED]);
        let write = Ended { kind, set, stamp, ..Ended::NONE };
        let asking = WritePart { set, awaited: set, ..WritePart::NONE };
        let mode = self.random.pick(&[FIRST_PART, SECOND_PART]);
        let awaited = set & self.random.number() | 1 << set.trailing_zeros();
        let fast = Client { mode, set, awaited, ..Client::INITIAL };
        // Of one item alone, fetched again or not.
        if fast.first_replied() != 0 {
            let kept: Vec<u64> = items(fast.first_replied()).collect();
            firsts[self.random.pick(&kept) as usize].stamp = stamp;
        }
        match self.random.below(13) {
            0 | 1 => Client { mode: WRITING, awaited: set, ..running },
            2 => Client { mode: READING, awaited: set, ..running },
            3 => Client { mode: IDLE, ..running },
            4 => Client { last: read, ..Client::INITIAL },
            5 => Client { last: write, ..Client::INITIAL },
            6 => Client { mode: FIRST_PART, awaited: set, ..running },
            7 => Client { mode: SECOND_PART, awaited: set, ..running },
            // The stamp of its write part, whatever it awaits; or one that it asks for.
            8 => {
                let write = WritePart { stamp, ..asking };
                Client { mode: MIXING, set, write, ..Client::INITIAL }
            }
            9 => {
                let write = WritePart { stamp, awaited: 0, ..asking };
                Client { mode: MIXING, set, awaited: set, write, ..Client::INITIAL }
            }
            10 => Client { mode: MIXING, awaited: set, write: asking, ..running },
            _ => Client { firsts, ..fast },
        }
    }

    fn version(&mut self, stamp: Stamp) -> Version {
        let item = self.random.below(self.tables.sizes.items);
        Version { item, value: self.random.below(1 << 32), stamp, set: self.set() | 1 << item }
    }

    fn client(&mut self) -> u64 {
        self.random.between(1, self.tables.sizes.clients)
    }

    /// A nonempty set.
    fn set(&mut self) -> u64 {
        let items = self.tables.sizes.items;
        self.random.number() & (u64::MAX >> (64 - items)) | 1 << self.random.below(items)
    }
}
