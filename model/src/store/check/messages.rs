//! The ninth rule: what is awaited, and which message is for it.

use super::block::{Block, UnderWay};
use super::misread::Misread;
use crate::set::items;
use crate::stamp::Stamp;
use crate::store::message::Message;
use crate::store::tables::{Version, FIRST_PART, IDLE, MIXING, READING, SECOND_PART, WRITING};
use std::collections::BTreeMap;

/// An item that a client awaits: its got, or its prepared reply.
#[derive(Clone, Copy, PartialEq, Eq, PartialOrd, Ord)]
enum Awaited {
    Read { client: u64, item: u64 },
    Written { client: u64, item: u64 },
}

impl Block<'_> {
    /// 9: "Each line awaited, of either kind, has exactly one message, which fits ..; every other
    /// message is a commit."
    pub(super) fn each_awaited_item_has_its_one_message(&self) -> bool {
        let mut messages: BTreeMap<Awaited, usize> =
            self.awaited().into_iter().map(|awaited| (awaited, 0)).collect();
        let mut others_pass = true;
        for message in &self.tables.messages {
            match self.awaited_with(message).and_then(|awaited| messages.get_mut(&awaited)) {
                Some(count) => *count += 1,
                None => others_pass &= self.is_let(message),
            }
        }
        let is_right = |(awaited, count): (&Awaited, &usize)| match (self.misread, awaited) {
            (Some(Misread::ReadsLost), Awaited::Read { .. })
            | (Some(Misread::WritesLost), Awaited::Written { .. }) => *count <= 1,
            (Some(Misread::ReadsTwice), Awaited::Read { .. })
            | (Some(Misread::WritesTwice), Awaited::Written { .. }) => *count >= 1,
            _ => *count == 1,
        };
        messages.iter().all(is_right) && others_pass
    }

    /// A message that nobody awaits is a commit.
    fn is_let(&self, message: &Message) -> bool {
        match message {
            Message::Commit { .. } => true,
            Message::Prepare(_) | Message::Prepared { .. } => {
                self.is_misread(Misread::WrittenUnawaited)
            }
            _ => self.is_misread(Misread::ReadUnawaited),
        }
    }

    fn awaited(&self) -> Vec<Awaited> {
        let mut awaited = Vec::new();
        for client in 1..=self.tables.sizes.clients {
            let record = self.tables.client(client);
            if ![IDLE, WRITING].contains(&record.mode) {
                awaited.extend(items(record.awaited).map(|item| Awaited::Read { client, item }));
            }
        }
        for UnderWay { client, part } in &self.writes {
            let client = *client;
            awaited.extend(items(part.awaited).map(|item| Awaited::Written { client, item }));
        }
        awaited
    }

    /// What the message is for, if it "fits the desk's transaction in kind, stamp, set and value, a
    /// prepare being not yet stored". A first part asks for no stamp.
    fn awaited_with(&self, message: &Message) -> Option<Awaited> {
        let asks = |client: u64, item: u64, stamp: Stamp, free: Misread, part: Misread| {
            let record = self.tables.client(client);
            let is_asked = record.stamps[item as usize] == stamp || self.is_misread(free);
            let by_stamp = [READING, SECOND_PART, MIXING].contains(&record.mode) && is_asked
                || self.is_misread(part) && record.mode == FIRST_PART;
            by_stamp.then_some(Awaited::Read { client, item })
        };
        let asks_first = |client: u64, item: u64, anywhere: Misread| {
            let is_first = self.tables.client(client).mode == FIRST_PART;
            (is_first || self.is_misread(anywhere)).then_some(Awaited::Read { client, item })
        };
        match *message {
            Message::Commit { .. } => None,
            Message::Prepare(version) => {
                let Version { item, value, stamp, set } = version;
                let fits = |write: &&UnderWay| {
                    let is_its = match self.misread {
                        Some(Misread::PrepareStampsFree) => write.client == stamp.client,
                        _ => write.part.stamp == stamp,
                    };
                    let is_its_set =
                        write.part.set == set || self.is_misread(Misread::PreparedSetsFree);
                    let is_its_value = write.part.values[item as usize] == value
                        || self.is_misread(Misread::PreparedValuesFree);
                    is_its && is_its_set && is_its_value
                };
                let is_new =
                    !self.is_stored(stamp, item) || self.is_misread(Misread::PreparedAgain);
                let write = self.writes.iter().find(fits).filter(|_| is_new)?;
                Some(Awaited::Written { client: write.client, item })
            }
            Message::Prepared { item, stamp } => {
                let fits = |write: &&UnderWay| match self.misread {
                    Some(Misread::PreparedStampsFree) => write.client == stamp.client,
                    _ => write.part.stamp == stamp,
                };
                let write = self.writes.iter().find(fits)?;
                Some(Awaited::Written { client: write.client, item })
            }
            Message::Get { client, item, stamp } => {
                asks(client, item, stamp, Misread::GetStampsFree, Misread::GetInTheFirstPart)
            }
            Message::Got { client, version, .. } => {
                let Version { item, stamp, .. } = version;
                asks(client, item, stamp, Misread::GotStampsFree, Misread::GotInTheFirstPart)
            }
            Message::FirstGet { client, item } => {
                asks_first(client, item, Misread::FirstGetAnywhere)
            }
            Message::FirstReply { client, version, .. } => {
                asks_first(client, version.item, Misread::FirstReplyAnywhere)
            }
        }
    }
}
