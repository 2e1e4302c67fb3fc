//! A session played on the model's store, for the blocks that it leaves.

use koolvent_model::answer::Answer;
use koolvent_model::layout::encode;
use koolvent_model::store::message::{Message, GET, GOT, PREPARE, PREPARED};
use koolvent_model::store::tables::{Sizes, Tables, WIDEST_WRITE};
use koolvent_model::store::Store;

/// A store in the middle of a session; every call on it is accepted.
#[derive(Clone)]
pub struct Session {
    store: Store,
}

/// The set of the first items.
pub fn first_items(count: u64) -> u64 {
    u64::MAX >> (64 - count)
}

/// Value bytes for the items of a set.
pub fn some_values(set: u64) -> Vec<u8> {
    (0..set.count_ones()).flat_map(|place| (1_000_000 * (place + 1)).to_be_bytes()).collect()
}

impl Session {
    pub fn fresh(clients: u64, partitions: u64, items: u64) -> Session {
        let mut store = Store::new();
        accepted(store.fresh(true, Sizes::new(clients, partitions, items)));
        Session { store }
    }

    pub fn start_read(&mut self, client: u64, set: u64) {
        accepted(self.store.start_read(client, set));
    }

    pub fn start_fast_read(&mut self, client: u64, set: u64) {
        accepted(self.store.start_fast_read(client, set));
    }

    pub fn start_write(&mut self, client: u64, set: u64) {
        let values = some_values(set);
        accepted(self.store.start_write(client, set, &values));
    }

    pub fn start_mixed(&mut self, client: u64, read: u64, write: u64) {
        let values = some_values(write);
        accepted(self.store.start_mixed(client, read, write, &values));
    }

    pub fn hand_over(&mut self, giver: u64, receiver: u64) {
        accepted(self.store.hand_over(giver, receiver));
    }

    /// A read from its start to its end.
    pub fn read(&mut self, client: u64, set: u64) {
        self.start_read(client, set);
        self.deliver(GET, client, set.count_ones());
        self.deliver(GOT, client, set.count_ones());
    }

    /// A write from its start to its end; its commits lie in the pile.
    pub fn write(&mut self, client: u64, set: u64) {
        self.start_write(client, set);
        self.deliver(PREPARE, client, set.count_ones());
        self.deliver(PREPARED, client, set.count_ones());
    }

    /// Writes the first items, in as few writes as can be; all messages are delivered. Where there
    /// are several, neighbours are in different ones, so that no two entries of a view in a row are
    /// alike.
    pub fn write_first(&mut self, client: u64, items: u64) {
        let writes = items.div_ceil(WIDEST_WRITE);
        for first in 0..writes {
            let apart = (first..items).step_by(writes as usize);
            self.write(client, apart.map(|item| 1 << item).sum());
            self.deliver_all();
        }
    }

    /// Delivers so many messages of the kind and client, each time the first.
    pub fn deliver(&mut self, kind: u64, client: u64, count: u32) {
        for _ in 0..count {
            let place = self.place(kind, client);
            accepted(self.store.deliver(place));
        }
    }

    pub fn deliver_all(&mut self) {
        while !self.tables().messages.is_empty() {
            accepted(self.store.deliver(0));
        }
    }

    /// The place of the first message of the kind and client.
    pub fn place(&self, kind: u64, client: u64) -> u64 {
        let is_it = |message: &Message| message.kind() == kind && message.client() == client;
        let place = self.tables().messages.iter().position(is_it);
        place.expect("such a message lies in the pile") as u64
    }

    pub fn tables(&self) -> &Tables {
        &self.store.tables
    }

    pub fn block(&self) -> Vec<u64> {
        encode(self.tables())
    }
}

fn accepted(answer: Answer) {
    assert!(!matches!(answer, Answer::Refused(_)), "{answer:?}");
}
