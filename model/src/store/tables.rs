//! The tables: all state of the store.
//!
//! Numbers are wider than their ranges, so that damaged tables can be written down.
//! What lies outside the sizes, or outside a client's set, is no field and stays initial.

use super::message::Message;
use crate::set::{self, items, size};
use crate::stamp::{Entry, Stamp};

/// The most clients a store has.
pub const CLIENTS: usize = 8;
/// The most partitions a store has.
pub const PARTITIONS: usize = 8;
/// The most items a store has.
pub const ITEMS: usize = 64;
/// The most stored versions, prepares in flight counted as well.
pub const VERSION_CAPACITY: u64 = 512;
/// The greatest load.
pub const LOAD_CAPACITY: u64 = 128;
/// The most items of a write.
pub const WIDEST_WRITE: u64 = 12;

/// How many clients (desks, from 1), partitions (cabinets, from 0) and items (lines, from 0) exist.
#[derive(Clone, Copy, Debug, Default, PartialEq, Eq)]
pub struct Sizes {
    pub clients: u64,
    pub partitions: u64,
    pub items: u64,
}

impl Sizes {
    pub fn new(clients: u64, partitions: u64, items: u64) -> Sizes {
        Sizes { clients, partitions, items }
    }

    /// Whether they are in 1..8, 1..8 and 1..64.
    pub fn are_allowed(&self) -> bool {
        (1..=CLIENTS as u64).contains(&self.clients)
            && (1..=PARTITIONS as u64).contains(&self.partitions)
            && (1..=ITEMS as u64).contains(&self.items)
    }
}

/// What a write put on an item: its value, stamp and write set (the item and its siblings).
#[derive(Clone, Copy, Debug, PartialEq, Eq)]
pub struct Version {
    pub item: u64,
    pub value: u64,
    pub stamp: Stamp,
    pub set: u64,
}

/// The mode of a client that awaits nothing.
pub const IDLE: u64 = 0;
/// The mode of a client with a running read.
pub const READING: u64 = 1;
/// The mode of a client with a running write.
pub const WRITING: u64 = 2;
/// The mode of a client with a fast read whose first replies haven't all come.
pub const FIRST_PART: u64 = 3;
/// The mode of a client with a fast read that fetches items again.
pub const SECOND_PART: u64 = 4;
/// The mode of a client with a running mixed transaction.
pub const MIXING: u64 = 5;
/// How many modes there are.
pub const MODES: u64 = 6;

/// The write part of a mixed transaction.
#[derive(Clone, Copy, Debug, PartialEq, Eq)]
pub struct WritePart {
    pub set: u64,
    /// The items of the set whose prepared reply has not come.
    pub awaited: u64,
    pub stamp: Stamp,
    /// By item of the set.
    pub values: [u64; ITEMS],
}

impl WritePart {
    /// No part.
    pub const NONE: WritePart =
        WritePart { set: 0, awaited: 0, stamp: Stamp::INITIAL, values: [0; ITEMS] };
}

/// A client (desk): its mode and its running transaction. Steps leave an idle client no set; damage
/// may. Of a mixed transaction the set and what goes by it are the read part's.
#[derive(Clone, Copy, Debug, PartialEq, Eq)]
pub struct Client {
    pub mode: u64,
    /// The number of its last write, 0 before the first.
    pub count: u64,
    pub set: u64,
    /// The items of the set whose last message has not come.
    pub awaited: u64,
    /// By item of the set: the stamp asked for, or written.
    pub stamps: [Stamp; ITEMS],
    /// By item of the set: the value that came, or is written.
    pub values: [u64; ITEMS],
    /// By item of the set whose first reply has come to a fast read: that version's stamp and write
    /// set.
    pub firsts: [Entry; ITEMS],
    /// Of a mixed transaction.
    pub write: WritePart,
    pub last: Ended,
}

/// The kind of a last ended transaction when none has ended.
pub const NONE: u64 = 0;
/// The kind of a last ended read.
pub const READ: u64 = 1;
/// The kind of a last ended write.
pub const WRITE: u64 = 2;
/// The kind of a last ended fast read.
pub const FAST_READ: u64 = 3;
/// The kind of a last ended mixed transaction.
pub const MIXED: u64 = 4;
/// How many kinds of a last ended transaction there are.
pub const KINDS: u64 = 5;

/// A client's last ended transaction. Of a mixed one the set and what goes by it are what it read.
#[derive(Clone, Copy, Debug, PartialEq, Eq)]
pub struct Ended {
    pub kind: u64,
    pub set: u64,
    /// Of a write or a mixed transaction, its one stamp.
    pub stamp: Stamp,
    /// Of all but a write, by item of the set.
    pub stamps: [Stamp; ITEMS],
    /// By item of the set.
    pub values: [u64; ITEMS],
    /// Of a mixed transaction, what it wrote.
    pub write_set: u64,
    /// By item of that set.
    pub write_values: [u64; ITEMS],
}

impl Ended {
    /// No transaction has ended.
    pub const NONE: Ended = Ended {
        kind: NONE,
        set: 0,
        stamp: Stamp::INITIAL,
        stamps: [Stamp::INITIAL; ITEMS],
        values: [0; ITEMS],
        write_set: 0,
        write_values: [0; ITEMS],
    };
}

impl Client {
    /// Idle, nothing written, nothing ended.
    pub const INITIAL: Client = Client::resting(0, Ended::NONE);

    /// Idle, with no set, with this count and with this transaction ended last.
    pub const fn resting(count: u64, last: Ended) -> Client {
        Client {
            mode: IDLE,
            count,
            set: 0,
            awaited: 0,
            stamps: [Stamp::INITIAL; ITEMS],
            values: [0; ITEMS],
            firsts: [Entry::INITIAL; ITEMS],
            write: WritePart::NONE,
            last,
        }
    }

    /// Whether it awaits no item, of either part.
    pub fn awaits_none(&self) -> bool {
        self.awaited == 0 && (self.mode != MIXING || self.write.awaited == 0)
    }

    /// The items whose replies count in the load: those of a write, ordinary or mixed, whose
    /// prepared reply has come, and of a fast read's first part whose first reply has.
    pub fn arrived(&self) -> u64 {
        match self.mode {
            WRITING | FIRST_PART => self.set & !self.awaited,
            MIXING => self.write.set & !self.write.awaited,
            _ => 0,
        }
    }

    /// The items whose first reply is kept: in the first part of a fast read those no longer
    /// awaited, in its second all.
    pub fn first_replied(&self) -> u64 {
        match self.mode {
            FIRST_PART => self.set & !self.awaited,
            SECOND_PART => self.set,
            _ => 0,
        }
    }

    /// The first replies that are kept.
    pub fn first_replies(&self) -> impl Iterator<Item = Entry> + '_ {
        items(self.first_replied()).map(|item| self.firsts[item as usize])
    }

    /// The stamps of the items of its set.
    pub fn running_stamps(&self) -> impl Iterator<Item = Stamp> + '_ {
        items(self.set).map(|item| self.stamps[item as usize])
    }

    /// What it has under way to write, alone or in a mixed transaction.
    pub fn write_under_way(&self) -> Option<WritePart> {
        match self.mode {
            WRITING => {
                let stamp = self.running_stamps().next().unwrap_or_default();
                let Client { set, awaited, values, .. } = *self;
                Some(WritePart { set, awaited, stamp, values })
            }
            MIXING => Some(self.write),
            _ => None,
        }
    }

    /// The stamps of its last ended transaction.
    pub fn last_stamps(&self) -> Vec<Stamp> {
        let read = items(self.last.set).map(|item| self.last.stamps[item as usize]);
        match self.last.kind {
            READ | FAST_READ => read.collect(),
            WRITE => vec![self.last.stamp],
            MIXED => read.chain([self.last.stamp]).collect(),
            _ => Vec::new(),
        }
    }
}

/// All state of the store.
#[derive(Clone, Debug, PartialEq, Eq)]
pub struct Tables {
    pub sizes: Sizes,
    /// By item, at its partition: the latest committed write.
    pub latest: [Entry; ITEMS],
    /// By client and item: the last-seen write.
    pub view: Box<[[Entry; ITEMS]; CLIENTS]>,
    pub clients: Box<[Client; CLIENTS]>,
    /// Stored versions; of those alike in item and stamp the first counts.
    pub versions: Vec<Version>,
    /// Messages in flight (the pile).
    pub messages: Vec<Message>,
}

impl Default for Tables {
    fn default() -> Tables {
        Tables::fresh(Sizes::default())
    }
}

impl Tables {
    /// The tables of an accepted fresh.
    pub fn fresh(sizes: Sizes) -> Tables {
        Tables {
            sizes,
            latest: [Entry::INITIAL; ITEMS],
            view: Box::new([[Entry::INITIAL; ITEMS]; CLIENTS]),
            clients: Box::new([Client::INITIAL; CLIENTS]),
            versions: Vec::new(),
            messages: Vec::new(),
        }
    }

    /// The record of a client that exists.
    pub fn client(&self, client: u64) -> &Client {
        &self.clients[client as usize - 1]
    }

    /// The record of a client that exists, to change.
    pub fn client_mut(&mut self, client: u64) -> &mut Client {
        &mut self.clients[client as usize - 1]
    }

    /// The view of a client that exists.
    pub fn view(&self, client: u64) -> &[Entry; ITEMS] {
        &self.view[client as usize - 1]
    }

    /// The view of a client that exists, to change.
    pub fn view_mut(&mut self, client: u64) -> &mut [Entry; ITEMS] {
        &mut self.view[client as usize - 1]
    }

    /// The first stored version of the item with that stamp.
    pub fn version(&self, item: u64, stamp: Stamp) -> Option<&Version> {
        self.versions.iter().find(|version| version.item == item && version.stamp == stamp)
    }

    /// The partition that an item lies in.
    pub fn partition_of(&self, item: u64) -> u64 {
        item % self.sizes.partitions
    }

    /// The greatest among the client's count and all numbers in its view.
    pub fn greatest_number(&self, client: u64) -> u64 {
        let seen = self.view(client).iter().map(|entry| entry.stamp.number);
        seen.fold(self.client(client).count, u64::max)
    }

    /// Messages, and the replies that have come: for each write, of a mixed transaction too, the
    /// prepared replies until it ends, and for each fast read the first replies until its first
    /// part is over.
    pub fn load(&self) -> u64 {
        let come: u64 = self.existing_clients().map(|client| size(client.arrived())).sum();
        self.messages.len() as u64 + come
    }

    /// Stored versions, and prepares in flight.
    pub fn versions_and_prepares(&self) -> u64 {
        let prepares =
            self.messages.iter().filter(|message| matches!(message, Message::Prepare(_))).count();
        (self.versions.len() + prepares) as u64
    }

    /// Latest and view entries of the items and clients that exist, each with its item.
    pub fn entries(&self) -> impl Iterator<Item = (u64, &Entry)> {
        let views = self.view.iter().take(self.sizes.clients as usize);
        let rows = std::iter::once(&self.latest).chain(views);
        rows.flat_map(|row| (0..self.sizes.items).zip(row))
    }

    /// The records of the clients that exist.
    pub fn existing_clients(&self) -> impl Iterator<Item = &Client> {
        self.clients.iter().take(self.sizes.clients as usize)
    }

    /// Whether there is such a client.
    pub fn has_client(&self, client: u64) -> bool {
        (1..=self.sizes.clients).contains(&client)
    }

    /// Whether the set holds only items that exist.
    pub fn holds_only_existing(&self, items: u64) -> bool {
        set::holds_only_below(items, self.sizes.items)
    }
}
