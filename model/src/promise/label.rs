//! What is known of a message without the store's tables.

use crate::stamp::Entry;

/// The kinds of message, with their numbers.
#[derive(Clone, Copy, Debug, PartialEq, Eq)]
pub(super) enum Kind {
    Prepare = 1,
    Prepared = 2,
    Commit = 3,
    Get = 4,
    Got = 5,
    FirstGet = 6,
    FirstReply = 7,
}

/// What is known of a message.
#[derive(Clone, Copy, Debug)]
pub(super) struct Label {
    pub(super) kind: Kind,
    pub(super) client: u64,
    /// The item; of a commit the partition.
    pub(super) item: u64,
    /// The transaction whose start it goes back to, by its place among them.
    pub(super) transaction: usize,
    /// Of a got or first reply, when the get behind it was delivered.
    pub(super) answered: usize,
    /// Of a got or first reply, its item's latest committed write then.
    pub(super) latest: Entry,
    /// Of a get, the write asked for; of a got or first reply, the write brought.
    pub(super) version: Entry,
}

impl Label {
    /// It is a request of a read: a get of either kind.
    pub(super) fn is_request(&self) -> bool {
        [Kind::Get, Kind::FirstGet].contains(&self.kind)
    }

    /// It is a reply to a read: a got or a first reply.
    pub(super) fn is_reply(&self) -> bool {
        [Kind::Got, Kind::FirstReply].contains(&self.kind)
    }
}
