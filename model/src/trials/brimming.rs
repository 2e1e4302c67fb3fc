//! Blocks at and just below a capacity.

use super::Busy;
use crate::stamp::{Entry, Stamp};
use crate::store::message::Message;
use crate::store::tables::{
    Client, Sizes, Tables, Version, WritePart, FIRST_PART, MIXING, SECOND_PART, WRITING,
};

const STAMP: Stamp = Stamp { number: 7, client: 2 };
const VERSION: Version = Version { item: 3, value: 9, stamp: STAMP, set: 0b1000 };
const GET: Message = Message::Get { client: 2, item: 3, stamp: Stamp::INITIAL };

/// So many sorts of blocks there are, each at the brim and with 1, 2 and 3 less.
pub const SORTS: usize = 15;

/// Blocks full of messages, of messages and replies, also to a mixed transaction, of messages and
/// first replies, of versions, and of versions and prepares, some that the widest read or write
/// fills, one in which the last first reply makes room, one with room for a message but not for
/// two, one with room for a version, and some whose count or a number in whose view is the
/// greatest; and the same with 1, 2 and 3 less. The first are at the brim.
pub fn brimming() -> Vec<Busy> {
    let sorts: [fn(usize) -> Tables; SORTS] = [
        messages,
        room_for_the_widest_read,
        room_for_the_widest_write,
        replies,
        first_replies,
        second_part,
        last_first_reply,
        mixed_replies,
        mixed_gots,
        room_for_a_shared_item,
        room_for_what_is_written,
        versions,
        prepares,
        count,
        seen,
    ];
    let mut brimming = Vec::new();
    for less in 0..4 {
        for (place, sort) in sorts.iter().enumerate() {
            brimming.push(Busy::holding(sort(less), (less + place) as u64));
        }
    }
    brimming
}

fn small() -> Tables {
    Tables::fresh(Sizes::new(2, 2, 4))
}

/// With more items than a write may have.
fn large() -> Tables {
    Tables::fresh(Sizes::new(8, 8, 64))
}

fn messages(less: usize) -> Tables {
    let mut tables = small();
    tables.messages = vec![GET; 128 - less];
    tables
}

fn room_for_the_widest_read(less: usize) -> Tables {
    let mut tables = large();
    tables.messages = vec![GET; 66 - less];
    tables
}

fn room_for_the_widest_write(less: usize) -> Tables {
    let mut tables = large();
    tables.messages = vec![GET; 118 - less];
    tables.versions = vec![VERSION; 502 - less];
    tables
}

/// Of client 2's 64 prepared replies 62 have come.
fn replies(less: usize) -> Tables {
    let mut tables = Tables::fresh(Sizes::new(2, 1, 64));
    *tables.client_mut(2) = Client {
        mode: WRITING,
        count: STAMP.number,
        set: u64::MAX,
        awaited: 0b11,
        stamps: [STAMP; 64],
        ..Client::INITIAL
    };
    tables.messages = vec![GET; 66 - less];
    tables
}

/// Of client 2's 63 first replies 61 have come.
fn first_replies(less: usize) -> Tables {
    let mut tables = with_fast_read(FIRST_PART, 0b11);
    tables.messages = vec![GET; 67 - less];
    tables
}

/// Client 2 fetches two items again; first replies no longer count.
fn second_part(less: usize) -> Tables {
    let mut tables = with_fast_read(SECOND_PART, 0b11);
    tables.messages = vec![GET; 126 - less];
    tables
}

/// Client 2's last first reply shows that all other items are to be fetched again.
fn last_first_reply(less: usize) -> Tables {
    let mut tables = with_fast_read(FIRST_PART, 1);
    let latest = Entry::new(STAMP, ALL_BUT_THE_LAST);
    let version = Version { item: 0, value: 9, stamp: STAMP, set: ALL_BUT_THE_LAST };
    let last = Message::FirstReply { client: 2, version, latest };
    tables.messages = [vec![GET; 65 - less], vec![last]].concat();
    tables
}

/// Of client 2's mixed transaction all 62 prepared replies have come, and of 64 gots 62.
fn mixed_replies(less: usize) -> Tables {
    let write = WritePart { set: u64::MAX >> 2, stamp: STAMP, ..WritePart::NONE };
    let mut tables = with_mixed(0b11, write);
    tables.messages = vec![GET; 66 - less];
    tables
}

/// Of client 2's mixed transaction all gots have come, which don't count, and no prepared reply.
fn mixed_gots(less: usize) -> Tables {
    let write = WritePart { set: 0b11, awaited: 0b11, stamp: STAMP, ..WritePart::NONE };
    let mut tables = with_mixed(0, write);
    tables.messages = vec![GET; 126 - less];
    tables
}

/// One place: a mixed transaction that reads and writes one item takes two.
fn room_for_a_shared_item(less: usize) -> Tables {
    replies(less + 1)
}

/// One place for a version: a mixed transaction that reads and writes one item takes no more.
fn room_for_what_is_written(less: usize) -> Tables {
    versions(less + 1)
}

/// Client 2 in a mixed transaction that reads all of 64 items.
fn with_mixed(awaited: u64, write: WritePart) -> Tables {
    let mut tables = Tables::fresh(Sizes::new(2, 1, 64));
    let count = STAMP.number;
    *tables.client_mut(2) =
        Client { mode: MIXING, count, set: u64::MAX, awaited, write, ..Client::INITIAL };
    tables
}

const ALL_BUT_THE_LAST: u64 = u64::MAX >> 1;

/// Client 2 in a part of a fast read of 63 items that keeps first replies of the initial versions.
fn with_fast_read(mode: u64, awaited: u64) -> Tables {
    let mut tables = Tables::fresh(Sizes::new(2, 1, 63));
    *tables.client_mut(2) = Client { mode, set: ALL_BUT_THE_LAST, awaited, ..Client::INITIAL };
    tables
}

fn versions(less: usize) -> Tables {
    let mut tables = small();
    tables.versions = vec![VERSION; 512 - less];
    tables
}

fn prepares(less: usize) -> Tables {
    let mut tables = versions(12);
    tables.messages = vec![Message::Prepare(VERSION); 12 - less];
    tables
}

fn count(less: usize) -> Tables {
    let mut tables = large();
    tables.client_mut(1).count = u64::from(u32::MAX) - less as u64;
    tables
}

/// Client 1 has seen client 2's write of item 3.
fn seen(less: usize) -> Tables {
    let mut tables = large();
    let stamp = Stamp::new(u64::from(u32::MAX) - less as u64, 2);
    tables.view_mut(1)[3] = Entry::new(stamp, 0b1000);
    tables
}
