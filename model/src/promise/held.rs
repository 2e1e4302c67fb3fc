//! What a block held that a check has accepted, as the history that a list of calls goes on from.

use super::history::History;
use super::label::{Kind, Label};
use super::transaction::{Read, Transaction, Write};
use super::view::View;
use crate::frames::log::Manner;
use crate::set::items;
use crate::stamp::{Entry, Stamp};
use crate::store::message::Message;
use crate::store::tables::{Client, Tables, WritePart};
use crate::store::tables::{FIRST_PART, IDLE, MIXING, NONE, READING, SECOND_PART};
use std::collections::{BTreeMap, BTreeSet};

/// What a block held stored counts as delivered, and its gots and first replies as answered after
/// that; then come the calls.
const STORED: usize = 0;
const ANSWERED: usize = 1;
pub(super) const FIRST: usize = 2;

/// The history that these tables stand for.
pub(super) fn history(tables: &Tables) -> History {
    let mut history = History::new(tables.sizes.partitions);
    history.stored = tables.versions.len() as u64;
    history.committed = (0..tables.sizes.items).zip(tables.latest).collect();
    history.transactions = whole_writes(tables);
    for client in 1..=tables.sizes.clients {
        let record = tables.client(client);
        history.views.insert(client, View::of(tables.view(client)));
        history.counts.insert(client, record.count);
        if record.last.kind != NONE {
            history.transactions.push(held(client, Some(STORED)));
        }
        if record.mode != IDLE {
            let place = history.transactions.len();
            let read = read_of(client, record, place);
            let write = record.write_under_way().map(|part| write_of(tables, &part));
            history.transactions.push(Transaction { read, write, ..held(client, None) });
        }
    }
    let labels = tables.messages.iter().map(|message| label(tables, &history, message));
    history.messages = labels.collect();
    history
}

fn held(client: u64, ended: Option<usize>) -> Transaction {
    let (started, own) = (STORED, BTreeSet::new());
    Transaction { client, held: true, started, ended, own, read: None, write: None }
}

/// Of each stamp that is stored with all of its write set, that write.
fn whole_writes(tables: &Tables) -> Vec<Transaction> {
    let stamps: BTreeSet<Stamp> = tables.versions.iter().map(|version| version.stamp).collect();
    let whole = stamps.into_iter().filter_map(|stamp| {
        let set = set_of(tables, stamp);
        let value = |item: u64| Some((item, tables.version(item, stamp)?.value as u32));
        let values = items(set).map(value).collect::<Option<Vec<(u64, u32)>>>()?;
        let write = Some(Write { stored: Some(STORED), ..started(set, stamp, values) });
        Some(Transaction { write, ..held(stamp.client, Some(STORED)) })
    });
    whole.collect()
}

/// The write set of a stamp, as a stored version has it; of the initial one none.
fn set_of(tables: &Tables, stamp: Stamp) -> u64 {
    let of_stamp = tables.versions.iter().find(|version| version.stamp == stamp);
    of_stamp.map_or(0, |version| version.set)
}

/// The write that a client has under way, alone or in a mixed transaction.
fn write_of(tables: &Tables, part: &WritePart) -> Write {
    let WritePart { set, stamp, values, .. } = *part;
    let values = items(set).map(|item| (item, values[item as usize] as u32)).collect();
    let is_unstored = |item: &u64| tables.version(*item, stamp).is_none();
    let unstored: Vec<u64> = items(set).filter(is_unstored).collect();
    Write {
        stored: unstored.is_empty().then_some(STORED),
        unstored,
        unprepared: items(part.awaited).collect(),
        ..started(set, stamp, values)
    }
}

/// A write with these values, of which no commit was delivered.
fn started(set: u64, stamp: Stamp, values: Vec<(u64, u32)>) -> Write {
    Write {
        set,
        after: Stamp::INITIAL,
        stamp,
        values,
        unstored: Vec::new(),
        unprepared: Vec::new(),
        stored: None,
        committed: BTreeMap::new(),
    }
}

/// The read that the client has under way, at this place among the transactions, with its requests
/// and with its replies that have come. In a second part these are all first replies, and a second
/// request stands for each item that is awaited again; second answers that have come are left out
/// with their requests.
fn read_of(client: u64, record: &Client, transaction: usize) -> Option<Read> {
    let label = |kind: Kind, item: u64, version: Entry| Label {
        kind,
        client,
        item,
        transaction,
        answered: ANSWERED,
        latest: Entry::INITIAL,
        version,
    };
    let of_kind = |kind: Kind, set: u64| -> Vec<Label> {
        items(set).map(|item| label(kind, item, Entry::INITIAL)).collect()
    };
    let Client { set, awaited, .. } = *record;
    let firsts = items(record.first_replied()).zip(record.first_replies());
    let firsts = firsts.map(|(item, first)| label(Kind::FirstReply, item, first)).collect();
    let (manner, requests, replies) = match record.mode {
        READING | MIXING => {
            (Manner::Ordinary, of_kind(Kind::Get, set), of_kind(Kind::Got, set & !awaited))
        }
        FIRST_PART => (Manner::Fast, of_kind(Kind::FirstGet, set), firsts),
        SECOND_PART => {
            let [requests, again] = [of_kind(Kind::FirstGet, set), of_kind(Kind::Get, awaited)];
            (Manner::Fast, [requests, again].concat(), firsts)
        }
        _ => return None,
    };
    Some(Read { requests, replies, ..Read::new(set, manner, BTreeMap::new()) })
}

/// A commit is its write's, and any other message its client's transaction's that is under way.
fn label(tables: &Tables, history: &History, message: &Message) -> Label {
    let parts = message.parts();
    let client = message.client();
    let is_its = |of: &Transaction| match message {
        Message::Commit { stamp, .. } => {
            of.write.as_ref().is_some_and(|write| write.stamp == *stamp)
        }
        _ => of.client == client && of.ended.is_none(),
    };
    let transaction = history.transactions.iter().position(is_its);
    let kind = match message {
        Message::Prepare(_) => Kind::Prepare,
        Message::Prepared { .. } => Kind::Prepared,
        Message::Commit { .. } => Kind::Commit,
        Message::Get { .. } => Kind::Get,
        Message::Got { .. } => Kind::Got,
        Message::FirstGet { .. } => Kind::FirstGet,
        Message::FirstReply { .. } => Kind::FirstReply,
    };
    let stamp = parts.stamp.unwrap_or_default();
    Label {
        kind,
        client,
        item: parts.item.or(parts.partition).expect("a message has an item or a partition"),
        transaction: transaction.expect("an accepted block's messages are of its transactions"),
        answered: ANSWERED,
        latest: parts.latest.unwrap_or_default(),
        version: Entry::new(stamp, set_of(tables, stamp)),
    }
}
