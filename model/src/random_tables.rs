//! Random tables whose fields are in range, otherwise unlike any that calls leave. Those of every
//! fifth seed have many items, and sets that are wider than a write's.

use crate::random::Random;
use crate::set::{has, items};
use crate::stamp::{Entry, Stamp};
use crate::store::message::Message;
use crate::store::tables::{
    Client, Ended, Sizes, Tables, Version, FAST_READ, FIRST_PART, IDLE, MIXED, MIXING, NONE, READ,
    READING, SECOND_PART, WRITE, WRITING,
};

/// The tables that a seed gives.
pub fn random_tables(seed: u64) -> Tables {
    Maker::new(seed).tables()
}

struct Maker {
    random: Random,
    sizes: Sizes,
}

impl Maker {
    fn new(seed: u64) -> Maker {
        let mut random = Random::new(seed);
        let items = match seed % 5 {
            0 => random.between(13, 64),
            _ => random.between(1, 4),
        };
        let sizes = Sizes::new(random.between(1, 3), random.between(1, 3), items);
        Maker { random, sizes }
    }

    fn item(&mut self) -> u64 {
        self.random.below(self.sizes.items)
    }

    fn client(&mut self) -> u64 {
        self.random.between(1, self.sizes.clients)
    }

    fn set(&mut self) -> u64 {
        self.random.number() & (u64::MAX >> (64 - self.sizes.items))
    }

    fn written_stamp(&mut self) -> Stamp {
        Stamp::new(self.random.between(1, 2), self.client())
    }

    fn stamp(&mut self) -> Stamp {
        if self.random.percent(30) {
            Stamp::INITIAL
        } else {
            self.written_stamp()
        }
    }

    fn entry(&mut self) -> Entry {
        Entry::new(self.stamp(), self.set())
    }

    fn version(&mut self) -> Version {
        let item = self.item();
        Version {
            item,
            value: self.random.below(5),
            stamp: self.written_stamp(),
            set: self.set() | 1 << item,
        }
    }

    fn record(&mut self, client: u64) -> Client {
        let idle = [IDLE; 3];
        let busy = [READING, WRITING, WRITING, FIRST_PART, FIRST_PART, SECOND_PART, MIXING, MIXING];
        let mode = self.random.pick(&[&idle[..], &busy].concat());
        let mut one = self.stamp();
        if self.random.percent(70) {
            one = Stamp::new(self.random.between(1, 2), client);
        }
        let mut record = Client {
            mode,
            count: self.random.pick(&[0, 1, 5, 4_294_967_294, 4_294_967_295]),
            set: self.set(),
            last: self.ended(),
            ..Client::INITIAL
        };
        if mode != IDLE {
            let awaited = self.item();
            record.set |= 1 << awaited;
            record.awaited = record.set & (self.set() | 1 << awaited);
            if [WRITING, FIRST_PART].contains(&mode) && self.random.percent(60) {
                record.awaited = 1 << awaited;
            }
        }
        for item in 0..self.sizes.items as usize {
            if record.set >> item & 1 == 1 {
                record.stamps[item] = if mode == WRITING { one } else { self.stamp() };
                record.values[item] = self.random.below(5);
            }
        }
        for item in items(record.first_replied()) {
            record.firsts[item as usize] = self.entry();
        }
        if mode == MIXING {
            self.mix(&mut record, one);
        }
        record
    }

    /// A write part of this stamp joins the read part; either may have all its replies.
    fn mix(&mut self, record: &mut Client, stamp: Stamp) {
        let set = self.set() | 1 << self.item();
        let write = &mut record.write;
        (write.set, write.stamp) = (set, stamp);
        for item in items(set) {
            write.values[item as usize] = self.random.below(5);
        }
        match self.random.below(4) {
            // A reply may be the last.
            0 => {
                write.awaited = 0;
                record.awaited = 1 << record.set.trailing_zeros();
            }
            1 => {
                write.awaited = 1 << set.trailing_zeros();
                record.awaited = 0;
            }
            _ => write.awaited = set & self.random.number(),
        }
        if record.awaits_none() {
            record.awaited = record.set;
        }
    }

    fn ended(&mut self) -> Ended {
        let mut ended =
            Ended { kind: self.random.pick(&[NONE, READ, WRITE, FAST_READ, MIXED]), ..Ended::NONE };
        if ended.kind == NONE {
            return ended;
        }
        ended.set = self.set();
        for item in 0..self.sizes.items as usize {
            if ended.set >> item & 1 == 1 {
                ended.values[item] = self.random.below(5);
                if ended.kind != WRITE {
                    ended.stamps[item] = self.stamp();
                }
            }
        }
        if [WRITE, MIXED].contains(&ended.kind) {
            ended.stamp = self.stamp();
        }
        if ended.kind == MIXED {
            ended.write_set = self.set();
            for item in items(ended.write_set) {
                ended.write_values[item as usize] = self.random.below(5);
            }
        }
        ended
    }

    /// A message, often one that a client of the tables awaits.
    fn message(&mut self, tables: &Tables) -> Message {
        let (client, item) = (self.client(), self.item());
        let partition = self.random.below(self.sizes.partitions);
        match self.random.below(7) {
            0 => Message::Prepare(self.version()),
            1 => self.prepared(tables),
            2 => Message::Commit { partition, stamp: self.written_stamp() },
            3 => Message::Get { client, item, stamp: self.stamp() },
            4 => Message::FirstGet { client, item },
            5 => self.first_reply(tables),
            _ => self.got(tables),
        }
    }

    /// A prepared reply, mostly one that a writing client awaits, in a mixed transaction or not.
    fn prepared(&mut self, tables: &Tables) -> Message {
        let (client, item) = self.awaited(tables, &[WRITING, MIXING], |record| match record.mode {
            MIXING => record.write.awaited,
            _ => record.awaited,
        });
        let awaited = match tables.client(client) {
            Client { mode: MIXING, write, .. } => write.stamp,
            record => record.stamps[item as usize],
        };
        let stamp = match awaited == Stamp::INITIAL || self.random.once_in(4) {
            true => self.written_stamp(),
            false => awaited,
        };
        Message::Prepared { item, stamp }
    }

    /// A got, mostly one that a reading client awaits. Its set may lack its item, and the initial
    /// version may have one.
    fn got(&mut self, tables: &Tables) -> Message {
        let modes = [READING, SECOND_PART, MIXING];
        let (client, item) = self.awaited(tables, &modes, |record| record.awaited);
        let stamp = tables.client(client).stamps[item as usize];
        let version = Version { item, value: self.random.below(5), stamp, set: self.set() };
        Message::Got { client, version, latest: self.entry() }
    }

    /// A first reply, mostly one that a fast read awaits, now and then of any item to that read.
    /// Its latest may be another write's.
    fn first_reply(&mut self, tables: &Tables) -> Message {
        let modes: &[u64] = if self.random.once_in(8) { &[MIXING] } else { &[FIRST_PART] };
        let (client, awaited) = self.awaited(tables, modes, |record| record.awaited);
        let item = if self.random.once_in(4) { self.item() } else { awaited };
        let Entry { stamp, set } = self.entry();
        let version = Version { item, value: self.random.below(5), stamp, set };
        Message::FirstReply { client, version, latest: self.entry() }
    }

    /// A client and an item, mostly one that it awaits in one of these modes.
    fn awaited(
        &mut self,
        tables: &Tables,
        modes: &[u64],
        awaited: fn(&Client) -> u64,
    ) -> (u64, u64) {
        let (mut client, mut item) = (self.client(), self.item());
        for _ in 0..8 {
            let record = tables.client(client);
            if modes.contains(&record.mode) && has(awaited(record), item) {
                break;
            }
            (client, item) = (self.client(), self.item());
        }
        (client, item)
    }

    fn tables(&mut self) -> Tables {
        let mut tables = Tables::fresh(self.sizes);
        for item in 0..self.sizes.items as usize {
            tables.latest[item] = self.entry();
            for client in 0..self.sizes.clients as usize {
                tables.view[client][item] = self.entry();
            }
        }
        for client in 1..=self.sizes.clients {
            *tables.client_mut(client) = self.record(client);
        }
        let versions = self.random.pick(&[0, 3, 3, 10, 10, 511]);
        tables.versions = (0..versions).map(|_| self.version()).collect();
        let messages = self.random.pick(&[1, 5, 5, 30, 30, 126, 129]);
        tables.messages = (0..messages).map(|_| self.message(&tables)).collect();
        for client in 1..=self.sizes.clients {
            let seen = &mut tables.view_mut(client)[self.item() as usize];
            if seen.stamp != Stamp::INITIAL && self.random.once_in(4) {
                seen.stamp.number = self.random.pick(&[4_294_967_294, 4_294_967_295]);
            }
        }
        tables
    }
}
