//! The list of labels beside the calls: which message lies where, and whose it is.
//!
//! A message is of the client whose start put it there, or of the same client as the message whose
//! delivery did. With the labels go the clients' views: what a client sees by a reply, by the end
//! of a write and by a hand-over. The view at a start tells the number of a write and the write
//! that each get asks for. A reply also has its item's latest committed write when the get was
//! delivered. That is what a first reply brings, and the sets of these writes tell which items a
//! fast read fetches again. And with them go the writes that count as each client's own. From a
//! block that a check accepted (held.rs) the list begins with what the block held.

use super::label::{Kind, Label};
use super::transaction::{Read, Transaction, Write};
use super::view::View;
use crate::frames::hex;
use crate::frames::log::{LogFrame, Manner};
use crate::set::{items, size};
use crate::stamp::{Entry, Stamp};
use std::collections::{BTreeMap, BTreeSet};

/// The list of messages and all transactions so far, with the sizes of the fresh. The time of an
/// event is its place in the list; in a list from an accepted block two times come before the first
/// event's (held.rs).
#[derive(Clone, Debug, Default)]
pub(super) struct History {
    pub(super) partitions: u64,
    pub(super) messages: Vec<Label>,
    pub(super) transactions: Vec<Transaction>,
    /// By client: the writes that count as its own, those that it has ended and those that it was
    /// handed, by their places among the transactions.
    own: BTreeMap<u64, BTreeSet<usize>>,
    /// By item: the latest write of it whose commit at its partition was delivered.
    pub(super) committed: BTreeMap<u64, Entry>,
    /// By client: the number of the write that it started last.
    pub(super) counts: BTreeMap<u64, u64>,
    pub(super) views: BTreeMap<u64, View>,
    /// By client: the latest stamp among all entries that showings gave it, its own writes' too.
    shown: BTreeMap<u64, Stamp>,
    /// By client and item: the latest stamp that a read of that client showed, and the latest that
    /// a fast one did.
    read: BTreeMap<u64, BTreeMap<u64, Stamp>>,
    read_fast: BTreeMap<u64, BTreeMap<u64, Stamp>>,
    /// Prepares delivered and versions that a block held, and versions that clearings took away.
    pub(super) stored: u64,
    pub(super) gone: u64,
    /// Places left of those that a clearing freed, the items of writes started since taken off; of
    /// several clearings the most that one has left.
    pub(super) freed: u64,
}

impl History {
    pub(super) fn new(partitions: u64) -> History {
        History { partitions, ..History::default() }
    }

    /// An accepted read start: one get per item joins, of a fast read one first get.
    pub(super) fn start_read(&mut self, time: usize, client: u64, set: u64, manner: Manner) {
        let read = self.read_of(client, set, manner);
        self.start(time, client, Some(read), None);
        let kind = match manner {
            Manner::Ordinary => Kind::Get,
            Manner::Fast => Kind::FirstGet,
        };
        self.send_gets(client, set, kind);
    }

    /// An accepted write start: one prepare per item joins.
    pub(super) fn start_write(&mut self, time: usize, client: u64, set: u64, values: &[u8]) {
        let write = self.write_of(client, set, values);
        self.start(time, client, None, Some(write));
        self.send(client, set, Kind::Prepare);
    }

    /// An accepted mixed start: one get per item read joins, then one prepare per item written.
    pub(super) fn start_mixed(
        &mut self,
        time: usize,
        client: u64,
        [read, written]: [u64; 2],
        values: &[u8],
    ) {
        let read_part = self.read_of(client, read, Manner::Ordinary);
        let write_part = self.write_of(client, written, values);
        self.start(time, client, Some(read_part), Some(write_part));
        self.send_gets(client, read, Kind::Get);
        self.send(client, written, Kind::Prepare);
    }

    fn read_of(&self, client: u64, set: u64, manner: Manner) -> Read {
        Read::new(set, manner, self.read.get(&client).cloned().unwrap_or_default())
    }

    fn write_of(&mut self, client: u64, set: u64, values: &[u8]) -> Write {
        let items: Vec<u64> = items(set).collect();
        let values = values.chunks_exact(4).map(|value| hex::number(value) as u32);
        let write = Write {
            set,
            after: self.latest_shown(client),
            stamp: self.next_stamp(client),
            values: items.iter().copied().zip(values).collect(),
            unstored: items.clone(),
            unprepared: items,
            stored: None,
            committed: BTreeMap::new(),
        };
        self.counts.insert(client, write.stamp.number);
        self.freed = self.freed.saturating_sub(size(set));
        write
    }

    /// The stamp of the client's next write: 1 more than the greatest among its count and all
    /// numbers in its view.
    fn next_stamp(&self, client: u64) -> Stamp {
        let count = self.counts.get(&client).copied().unwrap_or_default();
        let seen = self.views.get(&client).map_or(0, View::greatest_number);
        Stamp::new(1 + count.max(seen), client)
    }

    /// The latest stamp that the client has been shown.
    fn latest_shown(&self, client: u64) -> Stamp {
        self.shown.get(&client).copied().unwrap_or_default()
    }

    fn start(&mut self, time: usize, client: u64, read: Option<Read>, write: Option<Write>) {
        let own = self.own.get(&client).cloned().unwrap_or_default();
        let of = Transaction { client, held: false, started: time, ended: None, own, read, write };
        self.transactions.push(of);
    }

    /// One message of the kind joins for each item, of the transaction that started last; gives
    /// these.
    fn send(&mut self, client: u64, set: u64, kind: Kind) -> Vec<Label> {
        let transaction = self.transactions.len() - 1;
        let view = self.views.entry(client).or_default();
        let label = |item| Label {
            kind,
            client,
            item,
            transaction,
            answered: 0,
            latest: Entry::INITIAL,
            version: if kind == Kind::Get { view.choice(item) } else { Entry::INITIAL },
        };
        let joining: Vec<Label> = items(set).map(label).collect();
        self.messages.extend(&joining);
        joining
    }

    /// The gets, of either kind, are requests of the client's running reads.
    fn send_gets(&mut self, client: u64, set: u64, kind: Kind) {
        let gets = self.send(client, set, kind);
        for read in self.running_reads_mut(client) {
            read.requests.extend(&gets);
        }
    }

    /// An accepted delivery within the list: the message leaves, and what its step sends joins.
    pub(super) fn deliver(&mut self, time: usize, place: usize) -> Label {
        let label = self.messages.remove(place);
        match label.kind {
            Kind::Prepare => {
                self.stored += 1;
                if let Some(write) = &mut self.transactions[label.transaction].write {
                    write.unstored.retain(|item| *item != label.item);
                    if write.unstored.is_empty() {
                        write.stored = Some(time);
                    }
                }
                self.join(label, Kind::Prepared, label.item);
            }
            Kind::Prepared => self.deliver_prepared(label),
            Kind::Commit => self.deliver_commit(time, label),
            Kind::Get | Kind::FirstGet => {
                let latest = self.committed.get(&label.item).copied().unwrap_or_default();
                let (reply, version) = match label.kind {
                    Kind::FirstGet => (Kind::FirstReply, latest),
                    _ => (Kind::Got, label.version),
                };
                self.join(Label { answered: time, latest, version, ..label }, reply, label.item);
            }
            Kind::Got | Kind::FirstReply => self.deliver_reply(label),
        }
        label
    }

    /// The reply is seen and counted; with the last first reply of a fast read the items that it found older
    /// are fetched again, and their gets join, ascending.
    fn deliver_reply(&mut self, label: Label) {
        let view = self.views.entry(label.client).or_default();
        view.see(label.item, label.latest);
        view.see(label.item, label.version);
        let mut gets = Vec::new();
        for read in self.running_reads_mut(label.client) {
            read.replies.push(label);
            if label.kind == Kind::FirstReply && read.firsts().count() as u64 == size(read.set) {
                let get = |(item, version)| Label { kind: Kind::Get, item, version, ..label };
                gets = read.found_older().into_iter().map(get).collect();
                read.requests.extend(&gets);
            }
            if read.replies.len() as u64 == size(read.set) {
                read.sent = Some(read.requests.len());
            }
        }
        self.messages.extend(gets);
        self.send_commits_if_over(label);
    }

    fn deliver_prepared(&mut self, label: Label) {
        let Some(write) = &mut self.transactions[label.transaction].write else {
            return;
        };
        write.unprepared.retain(|item| *item != label.item);
        self.send_commits_if_over(label);
    }

    /// With the last reply of either kind the commits of the transaction's write part join.
    fn send_commits_if_over(&mut self, label: Label) {
        let of = &self.transactions[label.transaction];
        let Some(write) = of.write.as_ref().filter(|_| of.is_over()) else {
            return;
        };
        let set = write.set;
        for partition in 0..self.partitions {
            if items(set).any(|item| item % self.partitions == partition) {
                self.join(label, Kind::Commit, partition);
            }
        }
    }

    fn deliver_commit(&mut self, time: usize, label: Label) {
        let Some(write) = &mut self.transactions[label.transaction].write else {
            return;
        };
        write.committed.insert(label.item, time);
        for item in items(write.set).filter(|item| item % self.partitions == label.item) {
            let committed = self.committed.entry(item).or_default();
            if write.stamp > committed.stamp {
                *committed = Entry::new(write.stamp, write.set);
            }
        }
    }

    fn join(&mut self, sender: Label, kind: Kind, item: u64) {
        self.messages.push(Label { kind, item, ..sender });
    }

    /// An accepted clearing took away so many versions.
    pub(super) fn clear(&mut self, gone: u64) {
        self.gone += gone;
        self.freed = self.freed.max(gone);
    }

    /// An accepted hand-over: the receiver takes over what the giver has seen, and what counts as
    /// the giver's own counts as the receiver's.
    pub(super) fn hand_over(&mut self, giver: u64, receiver: u64) {
        let seen = self.views.get(&giver).cloned().unwrap_or_default();
        self.views.entry(receiver).or_default().take_over(&seen);
        let own = self.own.get(&giver).cloned().unwrap_or_default();
        self.own.entry(receiver).or_default().extend(own);
    }

    /// The writes that counted as the client's own at the start of its transaction.
    pub(super) fn own_writes<'a>(
        &'a self,
        of: &'a Transaction,
    ) -> impl Iterator<Item = (&'a Transaction, &'a Write)> {
        let own = of.own.iter().map(|place| &self.transactions[*place]);
        own.filter_map(|of| of.write.as_ref().map(|write| (of, write)))
    }

    /// Places that prepares delivered and in flight would take if no version had gone.
    pub(super) fn places_taken(&self) -> u64 {
        let prepares = self.messages.iter().filter(|label| label.kind == Kind::Prepare);
        self.stored + prepares.count() as u64
    }

    /// A delivery of the client's message reported an end: from then on what it wrote is in its view
    /// and, unless the block held that write, its own.
    pub(super) fn end(&mut self, time: usize, client: u64) {
        let running = self.transactions.iter_mut().enumerate();
        for (place, of) in running.filter(|(_, of)| of.client == client && of.ended.is_none()) {
            of.ended = Some(time);
            if let Some(write) = &of.write {
                if !of.held {
                    self.own.entry(client).or_default().insert(place);
                }
                let view = self.views.entry(client).or_default();
                for item in items(write.set) {
                    view.see(item, Entry::new(write.stamp, write.set));
                }
            }
        }
    }

    /// The client's transactions that have started and not ended.
    pub(super) fn running(&self, client: u64) -> impl Iterator<Item = &Transaction> {
        let all = self.transactions.iter();
        all.filter(move |of| of.client == client && of.ended.is_none())
    }

    /// The client's running reads, those of mixed transactions too.
    fn running_reads_mut(&mut self, client: u64) -> impl Iterator<Item = &mut Read> {
        let all = self.transactions.iter_mut();
        let running = all.filter(move |of| of.client == client && of.ended.is_none());
        running.filter_map(|of| of.read.as_mut())
    }

    /// An accepted showing gave this frame of the client's transaction that ended last.
    pub(super) fn show(&mut self, client: u64, frame: &LogFrame) {
        let (written, shown) = (frame.written(), frame.shown());
        let latest = self.shown.entry(client).or_default();
        *latest = written.iter().chain(&shown).map(|entry| entry.stamp).fold(*latest, Stamp::max);
        let is_fast = frame.read.as_ref().is_some_and(|read| read.manner == Manner::Fast);
        let fast = is_fast.then_some(&mut self.read_fast);
        for by_client in std::iter::once(&mut self.read).chain(fast) {
            let read = by_client.entry(client).or_default();
            for entry in &shown {
                let latest = read.entry(entry.item).or_default();
                *latest = entry.stamp.max(*latest);
            }
        }
    }

    /// The latest stamp that a fast read of the client has shown for the item.
    pub(super) fn shown_fast(&self, client: u64, item: u64) -> Stamp {
        let shown = self.read_fast.get(&client).and_then(|shown| shown.get(&item));
        shown.copied().unwrap_or_default()
    }

    /// The client's transaction that ended last, if none of it is running.
    pub(super) fn last_ended(&self, client: u64) -> Option<&Transaction> {
        let last = self.transactions.iter().rfind(|of| of.client == client);
        last.filter(|of| of.ended.is_some())
    }

    /// The writes of the item whose commit at its partition was delivered before that time.
    pub(super) fn committed_before(
        &self,
        time: usize,
        item: u64,
    ) -> impl Iterator<Item = (&Transaction, &Write)> {
        let partition = item % self.partitions;
        let is_committed = move |write: &Write| {
            write.committed.get(&partition).is_some_and(|committed| *committed < time)
        };
        self.writes().filter(move |(_, write)| write.value(item).is_some() && is_committed(write))
    }

    /// All accepted writes so far, those of mixed transactions too.
    pub(super) fn writes(&self) -> impl Iterator<Item = (&Transaction, &Write)> {
        self.transactions.iter().filter_map(|of| of.write.as_ref().map(|write| (of, write)))
    }
}
