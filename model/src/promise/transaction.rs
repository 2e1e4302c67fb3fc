//! Reads, writes and mixed transactions from their accepted starts on.

use super::label::{Kind, Label};
use crate::frames::log::Manner;
use crate::set::{has, items, size};
use crate::stamp::{Entry, Stamp};
use std::collections::{BTreeMap, BTreeSet};

/// A read, alone or of a mixed transaction, from its accepted start.
#[derive(Clone, Debug)]
pub(super) struct Read {
    pub(super) set: u64,
    pub(super) manner: Manner,
    /// By item: the latest stamp that reads of its client had shown before its start.
    pub(super) after: BTreeMap<u64, Stamp>,
    /// The gets of its client, of either kind, that joined from its start to its end.
    pub(super) requests: Vec<Label>,
    /// Gots and first replies of its client that were delivered from its start to its end.
    pub(super) replies: Vec<Label>,
    /// Once as many replies have come as the read has items: how many requests had joined with the
    /// last of these.
    pub(super) sent: Option<usize>,
}

impl Read {
    pub(super) fn new(set: u64, manner: Manner, after: BTreeMap<u64, Stamp>) -> Read {
        Read { set, manner, after, requests: Vec::new(), replies: Vec::new(), sent: None }
    }

    /// The first replies that have come.
    pub(super) fn firsts(&self) -> impl Iterator<Item = &Label> {
        self.replies.iter().filter(|reply| reply.kind == Kind::FirstReply)
    }

    /// The first reply for the item, if it has come.
    pub(super) fn first(&self, item: u64) -> Option<&Label> {
        self.firsts().find(|first| first.item == item)
    }

    /// Of a fast read whose first replies have come: the items whose own is older than one whose
    /// write also wrote them, ascending, each with the latest such write.
    pub(super) fn found_older(&self) -> Vec<(u64, Entry)> {
        let mut older = Vec::new();
        for own in items(self.set).filter_map(|item| self.first(item)) {
            let siblings = self.firsts().map(|first| first.version);
            let wrote = siblings.filter(|version| has(version.set, own.item));
            let freshest = wrote.max_by_key(|version| version.stamp).unwrap_or_default();
            if freshest.stamp > own.version.stamp {
                older.push((own.item, freshest));
            }
        }
        older
    }

    /// Items that were fetched again: for which there is a second request.
    pub(super) fn fetched_again(&self) -> usize {
        items(self.set).filter(|item| self.requested(*item) > 1).count()
    }

    /// How many replies end it: one for each item, and of a fast read one more for each fetched
    /// again.
    pub(super) fn replies_to_come(&self) -> usize {
        let again = match self.manner {
            Manner::Ordinary => 0,
            Manner::Fast => self.fetched_again(),
        };
        size(self.set) as usize + again
    }

    /// How often the item was asked for.
    pub(super) fn requested(&self, item: u64) -> usize {
        self.requests.iter().filter(|request| request.item == item).count()
    }

    /// Of a read that isn't fast: the write of the item that was chosen at its start.
    pub(super) fn chosen(&self, item: u64) -> Option<Entry> {
        let mut requests = self.requests.iter();
        requests.find(|request| request.item == item).map(|request| request.version)
    }

    /// How many replies came for the item.
    pub(super) fn replied(&self, item: u64) -> usize {
        self.replies.iter().filter(|reply| reply.item == item).count()
    }

    /// The last reply for the item that has come.
    pub(super) fn last_reply(&self, item: u64) -> Option<&Label> {
        self.replies.iter().rfind(|reply| reply.item == item)
    }

    /// The item of a request outside the set, or of a request or reply that isn't the first of its
    /// kind for that item, if there is one.
    pub(super) fn out_of_bounds(&self) -> Option<u64> {
        let mut met = [0_u64; 8];
        let mut messages = self.requests.iter().chain(&self.replies);
        let found = messages.find(|message| {
            let items = &mut met[message.kind as usize];
            let is_met = has(*items, message.item);
            *items |= 1 << message.item;
            is_met || message.is_request() && !has(self.set, message.item)
        });
        found.map(|message| message.item)
    }
}

/// A write, alone or of a mixed transaction, from its accepted start.
#[derive(Clone, Debug)]
pub(super) struct Write {
    pub(super) set: u64,
    /// The latest stamp that its client had been shown before its start.
    pub(super) after: Stamp,
    pub(super) stamp: Stamp,
    /// Item and value, ascending.
    pub(super) values: Vec<(u64, u32)>,
    /// Items whose own prepare is not delivered.
    pub(super) unstored: Vec<u64>,
    /// Items whose own prepared reply is not delivered.
    pub(super) unprepared: Vec<u64>,
    /// When it was stored at all its partitions.
    pub(super) stored: Option<usize>,
    /// By partition: when its commit was delivered there.
    pub(super) committed: BTreeMap<u64, usize>,
}

impl Write {
    /// The value it put on an item.
    pub(super) fn value(&self, item: u64) -> Option<u32> {
        let written = self.values.iter().find(|(written, _)| *written == item);
        written.map(|(_, value)| *value)
    }
}

/// A transaction with the times of its start and its end: a read, a write, or a mixed one, which
/// has both parts. A transaction that a block held was begun before the list: what it wrote may be
/// shown, what it sees enters its client's view, and nothing else is promised of it.
#[derive(Clone, Debug)]
pub(super) struct Transaction {
    pub(super) client: u64,
    pub(super) held: bool,
    pub(super) started: usize,
    pub(super) ended: Option<usize>,
    /// The writes that counted as its client's own at its start, by their places among the
    /// transactions.
    pub(super) own: BTreeSet<usize>,
    pub(super) read: Option<Read>,
    pub(super) write: Option<Write>,
}

impl Transaction {
    /// All replies of both kinds are in.
    pub(super) fn is_over(&self) -> bool {
        let read = self.read.as_ref();
        let write = self.write.as_ref();
        read.is_none_or(|read| read.replies.len() == read.replies_to_come())
            && write.is_none_or(|write| write.unprepared.is_empty())
    }
}
