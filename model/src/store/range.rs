//! What "in range" means of tables, clause by clause.

use super::message::{Message, Parts};
use super::tables::{
    Tables, Version, IDLE, KINDS, LOAD_CAPACITY, MIXED, MIXING, MODES, NONE, VERSION_CAPACITY,
    WRITING,
};
use crate::set::{has, items, lies_in};
use crate::stamp::Stamp;

/// The greatest count, stamp number and value.
pub const GREATEST: u64 = u32::MAX as u64;

/// Whether every field of the tables is in range.
pub fn in_range(tables: &Tables) -> bool {
    sizes_are_allowed(tables)
        && named_things_exist(tables)
        && modes_and_kinds_are_known(tables)
        && counts_and_values_fit(tables)
        && sets_hold_existing_items(tables)
        && stamps_are_initial_or_in_range(tables)
        && versions_are_of_writes_with_their_item(tables)
        && prepared_and_commits_are_of_writes(tables)
        && writers_have_one_stamp(tables)
        && mixed_transactions_have_both_parts(tables)
        && awaited_lie_in_the_set(tables)
        && idle_exactly_when_none_awaited(tables)
}

/// Whether every field is in range, and the load and the versions are within their capacities.
pub fn is_usable(tables: &Tables) -> bool {
    in_range(tables)
        && tables.load() <= LOAD_CAPACITY
        && tables.versions_and_prepares() <= VERSION_CAPACITY
}

/// The sizes are ones that 2 allows.
fn sizes_are_allowed(tables: &Tables) -> bool {
    tables.sizes.are_allowed()
}

/// Clients, items and partitions exist.
fn named_things_exist(tables: &Tables) -> bool {
    let item_exists = |item: u64| item < tables.sizes.items;
    let mut versions = tables.versions.iter();
    versions.all(|version| item_exists(version.item))
        && parts(tables).all(|parts| {
            parts.client.is_none_or(|client| tables.has_client(client))
                && parts.item.is_none_or(item_exists)
                && parts.partition.is_none_or(|partition| partition < tables.sizes.partitions)
        })
}

/// A client is idle, reading, writing, in either part of a fast read or in a mixed transaction, and
/// what it ended last is nothing, a read, a write, a fast read or a mixed transaction.
fn modes_and_kinds_are_known(tables: &Tables) -> bool {
    tables.existing_clients().all(|client| client.mode < MODES && client.last.kind < KINDS)
}

/// Counts are at most 4,294,967,295 and values of 32 bits.
fn counts_and_values_fit(tables: &Tables) -> bool {
    let fits = |number: u64| number <= GREATEST;
    tables.existing_clients().all(|client| {
        let all_fit = |set: u64, values: &[u64]| items(set).all(|item| fits(values[item as usize]));
        let last = &client.last;
        fits(client.count)
            && all_fit(client.set, &client.values)
            && (client.mode != MIXING || all_fit(client.write.set, &client.write.values))
            && (last.kind == NONE || all_fit(last.set, &last.values))
            && (last.kind != MIXED || all_fit(last.write_set, &last.write_values))
    }) && tables.versions.iter().all(|version| fits(version.value))
        && parts(tables).all(|parts| parts.value.is_none_or(fits))
}

/// Sets hold only existing items.
fn sets_hold_existing_items(tables: &Tables) -> bool {
    let exist = |set: u64| tables.holds_only_existing(set);
    tables.entries().all(|(_, entry)| exist(entry.set))
        && tables.existing_clients().all(|client| {
            exist(client.set)
                && exist(client.awaited)
                && client.first_replies().all(|first| exist(first.set))
                && (client.mode != MIXING || exist(client.write.set) && exist(client.write.awaited))
                && (client.last.kind == NONE || exist(client.last.set))
                && (client.last.kind != MIXED || exist(client.last.write_set))
        })
        && tables.versions.iter().all(|version| exist(version.set))
        && parts(tables).all(|parts| {
            parts.set.is_none_or(exist) && parts.latest.is_none_or(|latest| exist(latest.set))
        })
}

/// A stamp is initial or has both parts in range.
fn stamps_are_initial_or_in_range(tables: &Tables) -> bool {
    let known = |stamp: Stamp| {
        stamp == Stamp::INITIAL
            || (1..=GREATEST).contains(&stamp.number) && tables.has_client(stamp.client)
    };
    tables.entries().all(|(_, entry)| known(entry.stamp))
        && tables.existing_clients().all(|client| {
            client.running_stamps().all(known)
                && (client.mode != MIXING || known(client.write.stamp))
                && client.first_replies().all(|first| known(first.stamp))
                && client.last_stamps().into_iter().all(known)
        })
        && tables.versions.iter().all(|version| known(version.stamp))
        && parts(tables).all(|parts| {
            parts.stamp.is_none_or(known) && parts.latest.is_none_or(|latest| known(latest.stamp))
        })
}

/// Stored versions and prepares have a later stamp than the initial one and a set with their item.
fn versions_are_of_writes_with_their_item(tables: &Tables) -> bool {
    let of_a_write_with_its_item =
        |version: &Version| version.stamp > Stamp::INITIAL && has(version.set, version.item);
    tables.versions.iter().all(of_a_write_with_its_item)
        && tables.messages.iter().all(|message| match message {
            Message::Prepare(version) => of_a_write_with_its_item(version),
            _ => true,
        })
}

/// A prepared reply or commit isn't of the initial stamp.
fn prepared_and_commits_are_of_writes(tables: &Tables) -> bool {
    tables.messages.iter().all(|message| match *message {
        Message::Prepared { stamp, .. } | Message::Commit { stamp, .. } => stamp != Stamp::INITIAL,
        _ => true,
    })
}

/// A writing client has one stamp for all its items.
fn writers_have_one_stamp(tables: &Tables) -> bool {
    tables.existing_clients().filter(|client| client.mode == WRITING).all(|client| {
        let first = client.running_stamps().next();
        client.running_stamps().all(|stamp| Some(stamp) == first)
    })
}

/// A mixed transaction reads an item and writes one.
fn mixed_transactions_have_both_parts(tables: &Tables) -> bool {
    let mut mixed = tables.existing_clients().filter(|client| client.mode == MIXING);
    mixed.all(|client| client.set != 0 && client.write.set != 0)
}

/// Awaited items lie in the client's set, of a mixed transaction in that of their part.
fn awaited_lie_in_the_set(tables: &Tables) -> bool {
    tables.existing_clients().all(|client| {
        lies_in(client.awaited, client.set)
            && (client.mode != MIXING || lies_in(client.write.awaited, client.write.set))
    })
}

/// A client is idle exactly when it awaits none, of either part.
fn idle_exactly_when_none_awaited(tables: &Tables) -> bool {
    tables.existing_clients().all(|client| (client.mode == IDLE) == client.awaits_none())
}

/// The parts of the messages in flight.
fn parts(tables: &Tables) -> impl Iterator<Item = Parts> + '_ {
    tables.messages.iter().map(Message::parts)
}
