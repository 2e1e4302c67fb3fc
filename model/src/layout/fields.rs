//! Which words of a block are fields of its tables, and what each holds.

use super::places::{self, Scalar, NEEDED};
use super::sort::Sort;
use super::{halves_word, stamp_word, READ_HALF, WRITTEN_HALF};
use crate::set::{has, items};
use crate::stamp::Entry;
use crate::store::message::Message;
use crate::store::tables::{Client, Tables, Version, ITEMS, MIXED, MIXING, NONE, WRITE, WRITING};

/// A word of the block that is a field of the tables; of a mixed transaction's values, that has a
/// field in one half or in each.
#[derive(Clone, Copy, Debug, PartialEq, Eq)]
pub struct Field {
    pub place: usize,
    /// The bits that are of the field.
    pub mask: u64,
    pub word: u64,
    pub sort: Sort,
}

impl Field {
    /// Writes its bits and no others.
    pub fn store(&self, words: &mut [u64]) {
        let word = &mut words[self.place];
        *word = *word & !self.mask | self.word;
    }
}

/// The fields of tables whose sizes and counts are in range, by section.
pub fn fields(tables: &Tables) -> Vec<Field> {
    let mut fields = Vec::new();
    visit(tables, &mut |field| fields.push(field));
    fields
}

/// The block of these tables: fields, and 0 in every other word.
pub fn encode(tables: &Tables) -> Vec<u64> {
    let mut words = vec![0; NEEDED];
    store_fields(&mut words, tables);
    words
}

/// Writes the fields and no other word.
pub(super) fn store_fields(words: &mut [u64], tables: &Tables) {
    visit(tables, &mut |field| field.store(words));
}

type Visit<'a> = dyn FnMut(Field) + 'a;

fn visit(tables: &Tables, to: &mut Visit) {
    let sizes = &tables.sizes;
    one(to, places::CLIENTS, sizes.clients, Sort::NumberOfClients);
    one(to, places::PARTITIONS, sizes.partitions, Sort::NumberOfPartitions);
    one(to, places::ITEMS, sizes.items, Sort::NumberOfItems);
    let (versions, messages) = (tables.versions.len(), tables.messages.len());
    one(to, places::VERSIONS, versions as u64, Sort::NumberOfVersions);
    one(to, places::MESSAGES, messages as u64, Sort::NumberOfMessages);
    for (item, latest) in (0..sizes.items as usize).zip(&tables.latest) {
        entry(to, places::latest(item), latest);
    }
    for client in 1..=sizes.clients as usize {
        for (item, seen) in (0..sizes.items as usize).zip(&tables.view[client - 1]) {
            entry(to, places::view(client, item), seen);
        }
        running(to, client, &tables.clients[client - 1]);
        last(to, client, &tables.clients[client - 1]);
    }
    for (place, stored) in tables.versions.iter().enumerate() {
        version(to, places::version(place), stored);
    }
    for (place, in_flight) in tables.messages.iter().enumerate() {
        message(to, places::message(place), in_flight);
    }
}

fn one(to: &mut Visit, place: usize, word: u64, sort: Sort) {
    to(Field { place, mask: u64::MAX, word, sort });
}

/// The values of a mixed transaction, from this place on by item: those read for the items of the
/// one set, and those written for the items of the other.
fn halves(
    to: &mut Visit,
    from: usize,
    (read, answers): (u64, &[u64; ITEMS]),
    (write, values): (u64, &[u64; ITEMS]),
) {
    for item in items(read | write) {
        let half = |set: u64, mask: u64| if has(set, item) { mask } else { 0 };
        let mask = half(read, READ_HALF) | half(write, WRITTEN_HALF);
        let item = item as usize;
        let word = halves_word(answers[item], values[item]) & mask;
        to(Field { place: from + item, mask, word, sort: Sort::Values });
    }
}

fn entry(to: &mut Visit, place: usize, entry: &Entry) {
    one(to, place, stamp_word(entry.stamp), Sort::Stamp);
    one(to, place + 1, entry.set, Sort::Set);
}

/// A writing client has one stamp, any other one for each item of its set; a mixed transaction has
/// both, and a fast read the first replies that it keeps.
fn running(to: &mut Visit, client: usize, record: &Client) {
    let scalar = |scalar| places::scalar(client, scalar);
    one(to, scalar(Scalar::Mode), record.mode, Sort::Mode);
    one(to, scalar(Scalar::Count), record.count, Sort::Count);
    one(to, scalar(Scalar::Set), record.set, Sort::Set);
    one(to, scalar(Scalar::Awaited), record.awaited, Sort::Set);
    let stamp_of = |item: u64| stamp_word(record.stamps[item as usize]);
    if record.mode == WRITING {
        let stamp = items(record.set).next().map_or(0, stamp_of);
        one(to, scalar(Scalar::Stamp), stamp, Sort::Stamp);
    }
    for item in items(record.set) {
        let place = item as usize;
        if record.mode != WRITING {
            one(to, places::asked(client, place), stamp_of(item), Sort::Stamp);
        }
        if record.mode != MIXING {
            one(to, places::value(client, place), record.values[place], Sort::Value);
        }
    }
    if record.mode == MIXING {
        let write = &record.write;
        one(to, scalar(Scalar::Stamp), stamp_word(write.stamp), Sort::Stamp);
        one(to, scalar(Scalar::WriteSet), write.set, Sort::Set);
        one(to, scalar(Scalar::WriteAwaited), write.awaited, Sort::Set);
        let read = (record.set, &record.values);
        halves(to, places::value(client, 0), read, (write.set, &write.values));
    }
    for (item, first) in items(record.first_replied()).zip(record.first_replies()) {
        let place = places::first(client, item as usize);
        one(to, place, stamp_word(first.stamp), Sort::FirstStamp);
        one(to, place + 1, first.set, Sort::FirstSet);
    }
}

/// Nothing but the kind where none has ended; one stamp of a write, of a read one for each item,
/// and of a mixed transaction both.
fn last(to: &mut Visit, client: usize, record: &Client) {
    let scalar = |scalar| places::scalar(client, scalar);
    let last = &record.last;
    one(to, scalar(Scalar::LastKind), last.kind, Sort::LastKind);
    if last.kind == NONE {
        return;
    }
    one(to, scalar(Scalar::LastSet), last.set, Sort::Set);
    if [WRITE, MIXED].contains(&last.kind) {
        one(to, scalar(Scalar::LastStamp), stamp_word(last.stamp), Sort::Stamp);
    }
    for item in items(last.set) {
        let item = item as usize;
        if last.kind != WRITE {
            one(to, places::last_stamp(client, item), stamp_word(last.stamps[item]), Sort::Stamp);
        }
        if last.kind != MIXED {
            one(to, places::last_value(client, item), last.values[item], Sort::Value);
        }
    }
    if last.kind == MIXED {
        one(to, scalar(Scalar::LastWriteSet), last.write_set, Sort::Set);
        let read = (last.set, &last.values);
        halves(to, places::last_value(client, 0), read, (last.write_set, &last.write_values));
    }
}

fn version(to: &mut Visit, place: usize, version: &Version) {
    one(to, place, version.item, Sort::Item);
    one(to, place + 1, version.value, Sort::Value);
    one(to, place + 2, stamp_word(version.stamp), Sort::Stamp);
    one(to, place + 3, version.set, Sort::Set);
}

/// The words that the message's kind uses.
fn message(to: &mut Visit, place: usize, message: &Message) {
    let parts = message.parts();
    one(to, place, parts.kind, Sort::MessageKind);
    for (word, part, sort) in [
        (1, parts.client, Sort::Client),
        (1, parts.partition, Sort::Partition),
        (2, parts.item, Sort::Item),
        (3, parts.value, Sort::Value),
        (4, parts.stamp.map(stamp_word), Sort::Stamp),
        (5, parts.set, Sort::Set),
    ] {
        if let Some(part) = part {
            one(to, place + word, part, sort);
        }
    }
    if let Some(latest) = parts.latest {
        entry(to, place + 6, &latest);
    }
}
