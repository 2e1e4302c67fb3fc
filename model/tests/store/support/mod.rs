//! What the tests share: calls recorded as events, sets and values.

use koolvent_model::answer::Answer;
use koolvent_model::call::{Call, Event};
use koolvent_model::frames::log::MOST_BYTES;
use koolvent_model::stamp::{Entry, Stamp};
use koolvent_model::store::tables::{Sizes, Tables, Version};
use koolvent_model::store::Store;

/// The answer to a call on these tables, the tables after it, and its output. Where the proved
/// library is at hand, it gives the same on the block of these tables.
pub fn made(before: &Tables, call: Call) -> (Answer, Tables, Vec<u8>) {
    let mut store = Store::with_tables(before.clone());
    let (answer, event) = store.make(call);
    #[cfg(feature = "proved")]
    proved::assert_alike(before, &event, &store.tables);
    (answer, store.tables, event.output)
}

#[cfg(feature = "proved")]
mod proved {
    use koolvent_model::block;
    use koolvent_model::call::Event;
    use koolvent_model::layout::{decode, encode};
    use koolvent_model::proved::store::Proved;
    use koolvent_model::store::tables::{Tables, LOAD_CAPACITY, VERSION_CAPACITY};

    /// There is a block of these tables.
    fn fit(tables: &Tables) -> bool {
        tables.sizes.are_allowed()
            && tables.versions.len() as u64 <= VERSION_CAPACITY
            && tables.messages.len() as u64 <= LOAD_CAPACITY
    }

    pub fn assert_alike(before: &Tables, event: &Event, after: &Tables) {
        if fit(before) {
            let mut words = encode(before);
            assert_eq!(block::make(&Proved, &mut words, &event.call), *event);
            assert_eq!(decode(&words), decode(&encode(after)));
        }
    }
}

/// Makes the calls one after another.
pub fn make_all(store: &mut Store, calls: &[Call]) -> Vec<Event> {
    calls.iter().map(|call| store.make(call.clone()).1).collect()
}

pub fn fresh(clients: u64, partitions: u64, items: u64) -> Call {
    fresh_on(true, Sizes::new(clients, partitions, items))
}

/// A fresh on a block that is long enough or not.
pub fn fresh_on(long_enough: bool, sizes: Sizes) -> Call {
    Call::Fresh {
        long_enough,
        clients: sizes.clients,
        partitions: sizes.partitions,
        items: sizes.items,
    }
}

pub fn read(client: u64, items: &[u64]) -> Call {
    Call::Read { client, set: set_of(items) }
}

pub fn fast_read(client: u64, items: &[u64]) -> Call {
    start_fast_read(client, set_of(items))
}

/// A write of ascending items, each with its value.
pub fn write(client: u64, items: &[(u64, u32)]) -> Call {
    let (items, values): (Vec<u64>, Vec<u32>) = items.iter().copied().unzip();
    Call::Write { client, set: set_of(&items), values: value_bytes(&values) }
}

/// A mixed transaction that reads these items and writes those, each with its value, both
/// ascending.
pub fn mixed(client: u64, read: &[u64], written: &[(u64, u32)]) -> Call {
    let (items, values): (Vec<u64>, Vec<u32>) = written.iter().copied().unzip();
    start_mixed(client, set_of(read), set_of(&items), &value_bytes(&values))
}

pub fn deliver(place: u64) -> Call {
    Call::Deliver { place }
}

/// A showing with room enough for any frame.
pub fn show(client: u64) -> Call {
    show_in(client, &[0xee; MOST_BYTES])
}

pub fn show_in(client: u64, output: &[u8]) -> Call {
    let output = output.to_vec();
    Call::Show { client, output }
}

pub fn hand_over(giver: u64, receiver: u64) -> Call {
    Call::HandOver { giver, receiver }
}

pub fn compare(first: u64, second: u64) -> Call {
    Call::Compare { first, second }
}

pub fn start_read(client: u64, set: u64) -> Call {
    Call::Read { client, set }
}

pub fn start_fast_read(client: u64, set: u64) -> Call {
    Call::FastRead { client, set }
}

pub fn start_write(client: u64, set: u64, values: &[u8]) -> Call {
    let values = values.to_vec();
    Call::Write { client, set, values }
}

pub fn start_mixed(client: u64, read: u64, write: u64, values: &[u8]) -> Call {
    let values = values.to_vec();
    Call::Mixed { client, read, write, values }
}

pub fn set_of(items: &[u64]) -> u64 {
    items.iter().map(|item| 1 << item).sum()
}

pub fn value_bytes(values: &[u32]) -> Vec<u8> {
    values.iter().flat_map(|value| value.to_be_bytes()).collect()
}

pub fn entry(number: u64, client: u64, items: &[u64]) -> Entry {
    Entry::new(Stamp::new(number, client), set_of(items))
}

pub fn version(item: u64, value: u64, stamp: Stamp, items: &[u64]) -> Version {
    Version { item, value, stamp, set: set_of(items) }
}

/// Fresh tables.
pub fn tables(clients: u64, partitions: u64, items: u64) -> Tables {
    Tables::fresh(Sizes::new(clients, partitions, items))
}

/// Fresh tables with so many stored versions, all of item 0 and client 1.
pub fn tables_with_versions(sizes: Sizes, count: u64) -> Tables {
    let mut tables = Tables::fresh(sizes);
    tables.versions =
        (1..=count).map(|number| version(0, number, Stamp::new(number, 1), &[0])).collect();
    tables
}
