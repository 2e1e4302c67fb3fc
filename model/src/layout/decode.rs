//! The tables that the words of a block are.

use super::places::{self, Scalar, NEEDED};
use super::{halves_of, stamp_of};
use crate::set::items;
use crate::stamp::{Entry, Stamp};
use crate::store::message::{Message, COMMIT, FIRST_GET, FIRST_REPLY, GET, GOT, PREPARE, PREPARED};
use crate::store::range::is_usable;
use crate::store::tables::{
    Client, Ended, Sizes, Tables, Version, KINDS, LOAD_CAPACITY, MIXED, MIXING, MODES, NONE,
    VERSION_CAPACITY, WRITE, WRITING,
};

/// Whether refusal 1 doesn't apply to these words.
pub fn is_valid(words: &[u64]) -> bool {
    decode(words).is_some_and(|tables| is_usable(&tables))
}

/// The tables that the words encode, in range or not, initial outside sizes, counts and sets. None
/// where the block is too short, its sizes are ones that 2 refuses, or a count, mode or kind is the
/// number of none.
pub fn decode(words: &[u64]) -> Option<Tables> {
    if words.len() < NEEDED {
        return None;
    }
    let sizes = Sizes::new(words[places::CLIENTS], words[places::PARTITIONS], words[places::ITEMS]);
    let (versions, messages) = (words[places::VERSIONS], words[places::MESSAGES]);
    if !sizes.are_allowed() || versions > VERSION_CAPACITY || messages > LOAD_CAPACITY {
        return None;
    }
    let mut tables = Tables::fresh(sizes);
    for item in 0..sizes.items as usize {
        tables.latest[item] = entry(words, places::latest(item));
    }
    for client in 1..=sizes.clients as usize {
        for item in 0..sizes.items as usize {
            tables.view[client - 1][item] = entry(words, places::view(client, item));
        }
        running(words, client, &mut tables.clients[client - 1])?;
        last(words, client, &mut tables.clients[client - 1].last)?;
    }
    for place in 0..versions as usize {
        tables.versions.push(version(words, places::version(place)));
    }
    for place in 0..messages as usize {
        tables.messages.push(message(words, places::message(place))?);
    }
    Some(tables)
}

fn stamp(words: &[u64], place: usize) -> Stamp {
    stamp_of(words[place])
}

fn entry(words: &[u64], place: usize) -> Entry {
    Entry::new(stamp(words, place), words[place + 1])
}

fn running(words: &[u64], client: usize, record: &mut Client) -> Option<()> {
    let scalar = |scalar| words[places::scalar(client, scalar)];
    record.mode = scalar(Scalar::Mode);
    record.count = scalar(Scalar::Count);
    record.set = scalar(Scalar::Set);
    record.awaited = scalar(Scalar::Awaited);
    let written = stamp(words, places::scalar(client, Scalar::Stamp));
    for item in items(record.set) {
        let item = item as usize;
        record.stamps[item] = match record.mode {
            WRITING => written,
            _ => stamp(words, places::asked(client, item)),
        };
        let value = words[places::value(client, item)];
        record.values[item] = match record.mode {
            MIXING => halves_of(value).0,
            _ => value,
        };
    }
    if record.mode == MIXING {
        let write = &mut record.write;
        write.set = scalar(Scalar::WriteSet);
        write.awaited = scalar(Scalar::WriteAwaited);
        write.stamp = written;
        for item in items(write.set) {
            let item = item as usize;
            write.values[item] = halves_of(words[places::value(client, item)]).1;
        }
    }
    for item in items(record.first_replied()) {
        record.firsts[item as usize] = entry(words, places::first(client, item as usize));
    }
    (record.mode < MODES).then_some(())
}

fn last(words: &[u64], client: usize, last: &mut Ended) -> Option<()> {
    last.kind = words[places::scalar(client, Scalar::LastKind)];
    if last.kind == NONE {
        return Some(());
    }
    last.set = words[places::scalar(client, Scalar::LastSet)];
    if [WRITE, MIXED].contains(&last.kind) {
        last.stamp = stamp(words, places::scalar(client, Scalar::LastStamp));
    }
    for item in items(last.set) {
        let item = item as usize;
        if last.kind != WRITE {
            last.stamps[item] = stamp(words, places::last_stamp(client, item));
        }
        let value = words[places::last_value(client, item)];
        last.values[item] = match last.kind {
            MIXED => halves_of(value).0,
            _ => value,
        };
    }
    if last.kind == MIXED {
        last.write_set = words[places::scalar(client, Scalar::LastWriteSet)];
        for item in items(last.write_set) {
            let item = item as usize;
            last.write_values[item] = halves_of(words[places::last_value(client, item)]).1;
        }
    }
    (last.kind < KINDS).then_some(())
}

fn version(words: &[u64], place: usize) -> Version {
    Version {
        item: words[place],
        value: words[place + 1],
        stamp: stamp(words, place + 2),
        set: words[place + 3],
    }
}

fn message(words: &[u64], place: usize) -> Option<Message> {
    let (client, partition) = (words[place + 1], words[place + 1]);
    let version = version(words, place + 2);
    let Version { item, stamp, .. } = version;
    match words[place] {
        PREPARE => Some(Message::Prepare(version)),
        PREPARED => Some(Message::Prepared { item, stamp }),
        COMMIT => Some(Message::Commit { partition, stamp }),
        GET => Some(Message::Get { client, item, stamp }),
        GOT => Some(Message::Got { client, version, latest: entry(words, place + 6) }),
        FIRST_GET => Some(Message::FirstGet { client, item }),
        FIRST_REPLY => {
            Some(Message::FirstReply { client, version, latest: entry(words, place + 6) })
        }
        _ => None,
    }
}
