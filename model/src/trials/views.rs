//! Blocks whose clients' views stand to each other in every way: what a comparison tells apart, and
//! a hand-over evens out.

use super::Busy;
use crate::random::Random;
use crate::stamp::{Entry, Stamp};
use crate::store::tables::{
    Client, Sizes, Tables, WritePart, FIRST_PART, MIXING, READING, SECOND_PART, WRITING,
};

/// The block of a seed. Each view is a copy of another but for some entries, which are earlier,
/// later, of another set or anything; now and then a client is busy.
pub(super) fn views(seed: u64) -> Busy {
    let mut random = Random::new(seed);
    let sizes = Sizes::new(random.between(2, 8), random.between(1, 8), random.between(1, 64));
    let mut maker = Maker { random, tables: Tables::fresh(sizes) };
    for item in 0..sizes.items as usize {
        maker.tables.view_mut(1)[item] = maker.entry();
    }
    for client in 2..=sizes.clients {
        maker.copy(client);
    }
    for client in 1..=sizes.clients {
        maker.record(client);
    }
    Busy::holding(maker.tables, seed)
}

/// How an entry of a copy differs.
#[derive(Clone, Copy)]
enum Way {
    Earlier,
    Later,
    OtherSet,
    Any,
}

struct Maker {
    random: Random,
    tables: Tables,
}

impl Maker {
    /// The client's view is a copy of an earlier one's but for at most three entries.
    fn copy(&mut self, client: u64) {
        let from = self.random.between(1, client - 1);
        let mut view = *self.tables.view(from);
        let way = self.random.pick(&[Way::Earlier, Way::Later, Way::OtherSet, Way::Any]);
        for _ in 0..self.random.below(4) {
            let item = self.random.below(self.tables.sizes.items) as usize;
            view[item] = self.moved(view[item], way);
        }
        *self.tables.view_mut(client) = view;
    }

    fn moved(&mut self, entry: Entry, way: Way) -> Entry {
        let Stamp { number, client } = entry.stamp;
        let clients = self.tables.sizes.clients;
        let stamp = match way {
            Way::Any => return self.entry(),
            Way::OtherSet => entry.stamp,
            Way::Earlier if client > 1 && self.random.percent(50) => Stamp::new(number, client - 1),
            Way::Earlier if number > 1 => Stamp::new(number - 1, self.client()),
            Way::Earlier => Stamp::INITIAL,
            Way::Later if (1..clients).contains(&client) && self.random.percent(50) => {
                Stamp::new(number, client + 1)
            }
            Way::Later => Stamp::new(number + 1, self.client()),
        };
        Entry::new(stamp, self.set())
    }

    fn entry(&mut self) -> Entry {
        let stamp = match self.random.below(4) {
            0 => Stamp::INITIAL,
            _ => Stamp::new(self.random.between(1, 3), self.client()),
        };
        Entry::new(stamp, self.set())
    }

    fn client(&mut self) -> u64 {
        self.random.between(1, self.tables.sizes.clients)
    }

    fn set(&mut self) -> u64 {
        self.random.number() & (u64::MAX >> (64 - self.tables.sizes.items))
    }

    /// Mostly idle, with any count.
    fn record(&mut self, client: u64) {
        let count = self.random.below(5);
        let mode = self.random.pick(&[READING, WRITING, FIRST_PART, SECOND_PART, MIXING]);
        let mut busy = Client { mode, count, set: 1, awaited: 1, ..Client::INITIAL };
        busy.stamps[0] = Stamp::new(1, client);
        if mode == MIXING {
            // Either part alone may await something.
            let [read, awaited] = self.random.pick(&[[0, 1], [1, 0], [1, 1]]);
            busy.awaited = read;
            busy.write = WritePart { set: 1, awaited, stamp: busy.stamps[0], ..WritePart::NONE };
        }
        *self.tables.client_mut(client) = match self.random.below(5) {
            0 => busy,
            _ => Client { count, ..Client::INITIAL },
        };
    }
}
