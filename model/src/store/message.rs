//! Messages in flight, of seven kinds.

use super::tables::Version;
use crate::stamp::{Entry, Stamp};

/// The kinds of message, as numbers.
pub const PREPARE: u64 = 1;
pub const PREPARED: u64 = 2;
pub const COMMIT: u64 = 3;
pub const GET: u64 = 4;
pub const GOT: u64 = 5;
pub const FIRST_GET: u64 = 6;
pub const FIRST_REPLY: u64 = 7;

/// A message in flight.
#[derive(Clone, Copy, Debug, PartialEq, Eq)]
pub enum Message {
    /// A version to store.
    Prepare(Version),
    /// That version is stored.
    Prepared { item: u64, stamp: Stamp },
    /// The write of that stamp may become latest at this partition (cabinet).
    Commit { partition: u64, stamp: Stamp },
    /// The version of the item with exactly this stamp is wanted.
    Get { client: u64, item: u64, stamp: Stamp },
    /// That version, with its write set, and the item's latest.
    Got { client: u64, version: Version, latest: Entry },
    /// The latest committed version of the item is wanted.
    FirstGet { client: u64, item: u64 },
    /// That version, with its write set, and the item's latest.
    FirstReply { client: u64, version: Version, latest: Entry },
}

/// What a message is, part by part; a part that its kind doesn't have is none.
#[derive(Clone, Copy, Debug, Default)]
pub struct Parts {
    pub kind: u64,
    pub client: Option<u64>,
    pub partition: Option<u64>,
    pub item: Option<u64>,
    pub value: Option<u64>,
    pub stamp: Option<Stamp>,
    pub set: Option<u64>,
    pub latest: Option<Entry>,
}

impl Parts {
    fn of_reply(client: u64, version: Version, latest: Entry) -> Parts {
        Parts {
            client: Some(client),
            item: Some(version.item),
            value: Some(version.value),
            stamp: Some(version.stamp),
            set: Some(version.set),
            latest: Some(latest),
            ..Parts::default()
        }
    }
}

impl Message {
    pub fn parts(&self) -> Parts {
        let parts = Parts::default();
        match *self {
            Message::Prepare(version) => Parts {
                kind: PREPARE,
                item: Some(version.item),
                value: Some(version.value),
                stamp: Some(version.stamp),
                set: Some(version.set),
                ..parts
            },
            Message::Prepared { item, stamp } => {
                Parts { kind: PREPARED, item: Some(item), stamp: Some(stamp), ..parts }
            }
            Message::Commit { partition, stamp } => {
                Parts { kind: COMMIT, partition: Some(partition), stamp: Some(stamp), ..parts }
            }
            Message::Get { client, item, stamp } => Parts {
                kind: GET,
                client: Some(client),
                item: Some(item),
                stamp: Some(stamp),
                ..parts
            },
            Message::Got { client, version, latest } => {
                Parts { kind: GOT, ..Parts::of_reply(client, version, latest) }
            }
            Message::FirstGet { client, item } => {
                Parts { kind: FIRST_GET, client: Some(client), item: Some(item), ..parts }
            }
            Message::FirstReply { client, version, latest } => {
                Parts { kind: FIRST_REPLY, ..Parts::of_reply(client, version, latest) }
            }
        }
    }

    /// The number of its kind.
    pub fn kind(&self) -> u64 {
        self.parts().kind
    }

    /// The client whose transaction it serves.
    pub fn client(&self) -> u64 {
        let parts = self.parts();
        let of_stamp = parts.stamp.map(|stamp| stamp.client);
        parts.client.or(of_stamp).expect("a message has a client or a stamp")
    }
}
