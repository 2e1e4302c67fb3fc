//! A check is refused by 1 and then by 19: each rule is broken alone by tables that differ from
//! accepted ones in what it speaks of, and what the ticket leaves free is accepted.

mod clients;
mod entries;
mod far;
mod free;
mod messages;
mod order;

use super::{accepted, refused};
use crate::support::{entry, set_of, tables, version};
use koolvent_model::call::Call;
use koolvent_model::stamp::{Entry, Stamp};
use koolvent_model::store::check::broken_rules;
use koolvent_model::store::message::Message;
use koolvent_model::store::tables::{
    Client, Ended, Tables, Version, WritePart, FIRST_PART, MIXING, READING, SECOND_PART, WRITE,
    WRITING,
};

/// Client 1's first write, of items 0 and 1, whole and committed at partition 0; its second, of
/// items 1 and 2, which is under way; and client 4's, of item 3, in a mixed transaction.
const ENDED: Stamp = Stamp::new(1, 1);
const UNDER_WAY: Stamp = Stamp::new(2, 1);
const MIXED: Stamp = Stamp::new(4, 4);

/// Places in the pile.
const PREPARE: usize = 0;
const PREPARED: usize = 1;
const GET: usize = 2;
const GOT: usize = 3;
const FIRST_REPLY: usize = 4;
const FIRST_GET: usize = 5;
const COMMIT: usize = 6;
const GET_AGAIN: usize = 7;
const MIXED_GOT: usize = 8;
const MIXED_PREPARE: usize = 9;

fn ended() -> Entry {
    entry(1, 1, &[0, 1])
}

fn first_reply(client: u64, version: Version, latest: Entry) -> Message {
    Message::FirstReply { client, version, latest }
}

fn initial(item: u64) -> Version {
    version(item, 0, Stamp::INITIAL, &[])
}

/// The value that the ended write put on an item.
fn written(item: u64) -> Version {
    version(item, 7 + item, ENDED, &[0, 1])
}

/// Five clients, two partitions, four items, and much under way.
fn busy() -> Tables {
    let mut tables = tables(5, 2, 4);
    tables.latest[..2].fill(ended());
    tables.view_mut(1)[..2].fill(ended());
    tables.view_mut(2)[0] = ended();
    tables.versions = vec![written(0), written(1), version(1, 5, UNDER_WAY, &[1, 2])];
    for (client, record) in (1..).zip([writing(), reading(), first_part(), mixing(), second_part()])
    {
        *tables.client_mut(client) = record;
    }
    tables.messages = vec![
        Message::Prepare(version(2, 6, UNDER_WAY, &[1, 2])),
        Message::Prepared { item: 1, stamp: UNDER_WAY },
        Message::Get { client: 2, item: 0, stamp: ENDED },
        Message::Got { client: 2, version: written(1), latest: ended() },
        first_reply(3, written(0), ended()),
        Message::FirstGet { client: 3, item: 3 },
        Message::Commit { partition: 0, stamp: ENDED },
        Message::Get { client: 5, item: 1, stamp: ENDED },
        Message::Got { client: 4, version: written(0), latest: Entry::INITIAL },
        Message::Prepare(version(3, 9, MIXED, &[3])),
    ];
    tables
}

/// Client 1 writes items 1 and 2 and awaits both; what it ended last is its first write.
fn writing() -> Client {
    let last = Ended { kind: WRITE, set: set_of(&[0, 1]), stamp: ENDED, ..Ended::NONE };
    let set = set_of(&[1, 2]);
    let mut client = Client { mode: WRITING, set, awaited: set, ..Client::resting(2, last) };
    client.stamps[1..3].fill(UNDER_WAY);
    client.values[1..3].copy_from_slice(&[5, 6]);
    client
}

/// Client 2 reads items 0 and 1. Its last write, of item 0, has been cleared away.
fn reading() -> Client {
    let last = Ended { kind: WRITE, set: set_of(&[0]), stamp: Stamp::new(3, 2), ..Ended::NONE };
    let set = set_of(&[0, 1]);
    let mut client = Client { mode: READING, set, awaited: set, ..Client::resting(3, last) };
    client.stamps[..2].fill(ENDED);
    client
}

/// Client 3's fast read of items 0, 1 and 3 has had its first reply for item 1.
fn first_part() -> Client {
    let (set, awaited) = (set_of(&[0, 1, 3]), set_of(&[0, 3]));
    let mut client = Client { mode: FIRST_PART, set, awaited, ..Client::INITIAL };
    (client.firsts[1], client.values[1]) = (ended(), 8);
    client
}

/// Client 4 reads item 0 and writes item 3.
fn mixing() -> Client {
    let mut write = WritePart { stamp: MIXED, ..WritePart::NONE };
    (write.set, write.awaited, write.values[3]) = (set_of(&[3]), set_of(&[3]), 9);
    let mut client = Client { mode: MIXING, count: 4, write, ..Client::INITIAL };
    (client.set, client.awaited, client.stamps[0]) = (set_of(&[0]), set_of(&[0]), ENDED);
    client
}

/// Client 5's fast read of items 0 and 1 found item 1, of which its first reply was initial, older
/// than item 0 shows, and fetches it again.
fn second_part() -> Client {
    let (set, awaited) = (set_of(&[0, 1]), set_of(&[1]));
    let mut client = Client { mode: SECOND_PART, set, awaited, ..Client::INITIAL };
    (client.firsts[0], client.values[0]) = (ended(), 7);
    client.stamps[..2].fill(ENDED);
    client
}

/// The tables with something changed.
fn with(change: impl FnOnce(&mut Tables)) -> Tables {
    let mut tables = busy();
    change(&mut tables);
    tables
}

/// Changed so, they break this rule alone, and are refused by 19; so are they with their items
/// elsewhere.
fn breaks(rule: usize, change: impl FnOnce(&mut Tables)) {
    breaks_all(&[rule], change);
}

/// The same of several rules, and of no other.
fn breaks_all(rules: &[usize], change: impl FnOnce(&mut Tables)) {
    let tables = with(change);
    for tables in [far::moved(&tables), tables] {
        assert_eq!(broken_rules(&tables), rules);
        refused(&tables, 19, Call::Check);
    }
}

/// Changed so, they are accepted; so are they with their items elsewhere.
fn passes(change: impl FnOnce(&mut Tables)) {
    let tables = with(change);
    accepted(&far::moved(&tables), Call::Check);
    accepted(&tables, Call::Check);
}

#[test]
fn the_busy_tables_are_accepted() {
    passes(|_| ());
}
