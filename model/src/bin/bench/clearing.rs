//! What a clearing costs: on the busy block, with a fast read under way too, against the number of
//! stored versions, and where the slots of all versions are taken.

use crate::call::{self, Row};
use crate::cases::{busy_and_fast_clear, busy_clear, clear, Case};
use crate::growth::Point;
use crate::session::{first_items, Session};
use koolvent_model::layout::encode;
use koolvent_model::stamp::{Entry, Stamp};
use koolvent_model::store::message::Message;
use koolvent_model::store::tables::{
    Client, Sizes, Tables, Version, CLIENTS, ITEMS, LOAD_CAPACITY, SECOND_PART,
};

pub struct Clearings {
    pub busy: Row,
    pub busy_and_fast: Row,
    pub versions: Vec<Point>,
    pub slots_taken: Row,
}

/// How many versions there are, and what the row is called.
const VERSIONS: [(u64, &str); 4] = [
    (64, "64 versions, of which all stay"),
    (128, "128 versions, of which 64 stay"),
    (256, "256 versions, of which 64 stay"),
    (512, "512 versions, of which 64 stay"),
];

/// All in the same rounds.
pub fn clearings() -> Clearings {
    let first = [busy_clear(), busy_and_fast_clear(), clear_where_slots_are_taken()];
    let cases: Vec<Case> = first.into_iter().chain(VERSIONS.map(clear_of_versions)).collect();
    let mut rows = call::rows(&cases).into_iter();
    let [busy, busy_and_fast, slots_taken] = [(); 3].map(|()| rows.next().expect("a row a case"));
    let versions = VERSIONS.into_iter().zip(rows).map(|((count, _), row)| Point { count, row });
    Clearings { busy, busy_and_fast, versions: versions.collect(), slots_taken }
}

impl Clearings {
    pub fn rows(&self) -> Vec<&Row> {
        let versions = self.versions.iter().map(|point| &point.row);
        let busy = [&self.busy, &self.busy_and_fast];
        busy.into_iter().chain(versions).chain([&self.slots_taken]).collect()
    }
}

/// So many versions of 64 items, written by one client and read by all eight, and nothing in
/// flight: all go but the last of each item.
fn clear_of_versions((count, name): (u64, &'static str)) -> Case {
    let mut session = Session::fresh(8, 8, 64);
    for _ in 0..count / 64 {
        session.write_first(1, 64);
    }
    for client in 1..=8 {
        session.read(client, first_items(64));
    }
    assert_eq!(session.tables().versions.len() as u64, count);
    clear(name, session.block(), 64)
}

/// 512 versions that all go, each of a number that is 512 less than one in use of its client: these
/// share a slot, and all stamps in use are looked at. They are as many as can be: each client is in
/// the second part of a fast read of 64 items, and there are 128 gots. No calls leave such a block,
/// since a clearing drops nothing of a write that a view names.
fn clear_where_slots_are_taken() -> Case {
    let mut tables = Tables::fresh(Sizes::new(8, 8, 64));
    for client in 1..=CLIENTS as u64 {
        let mut record =
            Client { mode: SECOND_PART, set: u64::MAX, awaited: u64::MAX, ..Client::INITIAL };
        for item in 0..ITEMS as u64 {
            let set = 1 << item;
            let stamp = Stamp::new(1 + item, client);
            tables.versions.push(Version { item, value: item, stamp, set });
            let in_use = Entry::new(Stamp::new(stamp.number + 512, client), set);
            tables.view_mut(client)[item as usize] = in_use;
            tables.latest[item as usize] = in_use;
            record.firsts[item as usize] = in_use;
        }
        *tables.client_mut(client) = record;
    }
    let latest = tables.latest[0];
    let version = Version { item: 0, value: 0, stamp: latest.stamp, set: latest.set };
    let got = Message::Got { client: 1, version, latest };
    tables.messages = vec![got; LOAD_CAPACITY as usize];
    let name = "512 versions that all go, each with another of 1,344 stamps in its slot";
    clear(name, encode(&tables), 0)
}
