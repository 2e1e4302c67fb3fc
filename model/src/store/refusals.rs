//! The refusal table: for each call its tests in order, of which the first that applies is
//! returned.

use super::check::broken_rules;
use super::message::Message;
use super::range::{is_usable, GREATEST};
use super::shown::shown_frame;
use super::tables::{
    Sizes, Tables, Version, FIRST_PART, IDLE, LOAD_CAPACITY, MIXING, READING, SECOND_PART,
    VERSION_CAPACITY, WRITING,
};
use crate::set::{has, size};
use crate::stamp::Stamp;

/// A refusal and whether it applies; later tests may rely on earlier ones not applying.
type Test<'a> = (u64, &'a dyn Fn() -> bool);

fn first(tests: &[Test]) -> Option<u64> {
    let (refusal, _) = tests.iter().find(|(_, applies)| applies())?;
    Some(*refusal)
}

pub(super) fn fresh(long_enough: bool, sizes: Sizes) -> Option<u64> {
    first(&[(2, &|| !sizes.are_allowed()), (1, &|| !long_enough)])
}

/// Of an ordinary or a fast read, where the load is this.
pub(super) fn start_read(tables: &Tables, load: u64, client: u64, set: u64) -> Option<u64> {
    first(&[
        (1, &|| !is_usable(tables)),
        (3, &|| !tables.has_client(client)),
        (4, &|| tables.client(client).mode != IDLE),
        (5, &|| set == 0 || !tables.holds_only_existing(set)),
        (8, &|| load + size(set) > LOAD_CAPACITY),
    ])
}

/// Of a write or a mixed transaction with these sets, of which the last is written, where the load
/// is this and the widest write has so many items. Each set is tested by 5 and counts in the load,
/// an item in both twice; 6, 17 and 9 are for the items written.
pub(super) fn start_write(
    tables: &Tables,
    load: u64,
    widest: u64,
    client: u64,
    sets: &[u64],
    values: &[u8],
) -> Option<u64> {
    let written = sets.last().copied().map_or(0, size);
    let joining: u64 = sets.iter().copied().map(size).sum();
    first(&[
        (1, &|| !is_usable(tables)),
        (3, &|| !tables.has_client(client)),
        (4, &|| tables.client(client).mode != IDLE),
        (5, &|| sets.iter().any(|set| *set == 0 || !tables.holds_only_existing(*set))),
        (6, &|| values.len() as u64 != 4 * written),
        (17, &|| written > widest),
        (7, &|| tables.greatest_number(client) == GREATEST),
        (8, &|| load + joining > LOAD_CAPACITY),
        (9, &|| tables.versions_and_prepares() + written > VERSION_CAPACITY),
    ])
}

pub(super) fn deliver(tables: &Tables, place: u64) -> Option<u64> {
    let message = || &tables.messages[place as usize];
    first(&[
        (1, &|| !is_usable(tables)),
        (10, &|| place >= tables.messages.len() as u64),
        (11, &|| is_unwanted(tables, message())),
        (12, &|| asks_for_a_version_not_stored(tables, message())),
    ])
}

pub(super) fn show(tables: &Tables, client: u64, room: usize) -> Option<u64> {
    first(&[
        (1, &|| !is_usable(tables)),
        (3, &|| !tables.has_client(client)),
        (4, &|| tables.client(client).mode != IDLE),
        (13, &|| shown_frame(tables, client).is_none()),
        (14, &|| shown_frame(tables, client).is_some_and(|frame| room < frame.bytes().len())),
    ])
}

/// A clearing is refused by 1 alone.
pub(super) fn clear(tables: &Tables) -> Option<u64> {
    first(&[(1, &|| !is_usable(tables))])
}

/// Both exist, they are two, and both are idle.
pub(super) fn hand_over(tables: &Tables, giver: u64, receiver: u64) -> Option<u64> {
    let is_idle = |client| tables.client(client).mode == IDLE;
    first(&[
        (1, &|| !is_usable(tables)),
        (3, &|| !(tables.has_client(giver) && tables.has_client(receiver))),
        (18, &|| giver == receiver),
        (4, &|| !(is_idle(giver) && is_idle(receiver))),
    ])
}

/// Both exist; they may be busy, and they may be one.
pub(super) fn compare(tables: &Tables, one: u64, other: u64) -> Option<u64> {
    first(&[
        (1, &|| !is_usable(tables)),
        (3, &|| !(tables.has_client(one) && tables.has_client(other))),
    ])
}

/// 19 for a block that breaks a rule, tested after 1.
pub(super) fn check(tables: &Tables) -> Option<u64> {
    first(&[(1, &|| !is_usable(tables)), (19, &|| !broken_rules(tables).is_empty())])
}

/// A prepare of an item and stamp already stored; a prepared whose client isn't writing, a got
/// whose client isn't reading, or either not awaited with that item and stamp. In the first part of
/// a fast read no got is awaited, and a first reply is there alone, by its item alone. Each part of
/// a mixed transaction awaits its own replies.
fn is_unwanted(tables: &Tables, message: &Message) -> bool {
    let awaits = |client: u64, modes: &[u64], item: u64| {
        let record = tables.client(client);
        modes.contains(&record.mode) && has(record.awaited, item)
    };
    let asked = |client: u64, item: u64| tables.client(client).stamps[item as usize];
    match *message {
        Message::Prepare(version) => tables.version(version.item, version.stamp).is_some(),
        Message::Prepared { item, stamp } => {
            let client = stamp.client;
            let record = tables.client(client);
            match record.mode {
                MIXING => !(has(record.write.awaited, item) && record.write.stamp == stamp),
                _ => !(awaits(client, &[WRITING], item) && asked(client, item) == stamp),
            }
        }
        Message::Got { client, version: Version { item, stamp, .. }, .. } => {
            !(awaits(client, &[READING, SECOND_PART, MIXING], item) && asked(client, item) == stamp)
        }
        Message::FirstReply { client, version, .. } => !awaits(client, &[FIRST_PART], version.item),
        Message::Commit { .. } | Message::Get { .. } | Message::FirstGet { .. } => false,
    }
}

/// A get of a version that isn't stored, the initial one excepted. A first get is for the version
/// with its item's latest stamp.
fn asks_for_a_version_not_stored(tables: &Tables, message: &Message) -> bool {
    let (item, stamp) = match *message {
        Message::Get { item, stamp, .. } => (item, stamp),
        Message::FirstGet { item, .. } => (item, tables.latest[item as usize].stamp),
        _ => return false,
    };
    stamp != Stamp::INITIAL && tables.version(item, stamp).is_none()
}
