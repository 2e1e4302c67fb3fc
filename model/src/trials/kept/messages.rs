//! Messages are others: one goes, comes twice, comes from nowhere, or is changed.

use super::Maker;
use crate::stamp::Stamp;
use crate::store::message::Message;
use crate::store::tables::Version;

impl Maker {
    pub(super) fn change_messages(&mut self) {
        let count = self.tables.messages.len();
        if count == 0 || self.random.once_in(5) {
            let message = self.any_message();
            return self.tables.messages.push(message);
        }
        let place = self.random.place(count);
        let message = self.tables.messages[place];
        match self.random.below(12) {
            0 => drop(self.tables.messages.remove(place)),
            1 => self.tables.messages.push(message),
            2 => {
                let other = self.random.place(count);
                self.tables.messages.swap(place, other);
            }
            3 => self.tables.messages[place] = self.any_message(),
            4 => self.answer(place),
            _ => self.tables.messages[place] = self.another(message),
        }
    }

    /// A request in flight is the reply to it, or the other way round.
    fn answer(&mut self, place: usize) {
        let message = self.tables.messages[place];
        let latest = |item: u64| self.tables.latest[item as usize];
        let version = |item: u64, stamp: Stamp| {
            let initial = Version { item, value: 0, stamp, set: 0 };
            self.tables.version(item, stamp).copied().unwrap_or(initial)
        };
        self.tables.messages[place] = match message {
            Message::Get { client, item, stamp } => {
                Message::Got { client, version: version(item, stamp), latest: latest(item) }
            }
            Message::Got { client, version, .. } => {
                Message::Get { client, item: version.item, stamp: version.stamp }
            }
            Message::FirstGet { client, item } => {
                let version = version(item, latest(item).stamp);
                Message::FirstReply { client, version, latest: latest(item) }
            }
            Message::FirstReply { client, version, .. } => {
                Message::FirstGet { client, item: version.item }
            }
            Message::Prepare(version) => {
                Message::Prepared { item: version.item, stamp: version.stamp }
            }
            Message::Prepared { item, stamp } => Message::Prepare(version(item, stamp)),
            Message::Commit { .. } => message,
        };
    }

    /// The message with another part; of a read's mostly the read asks for it then.
    fn another(&mut self, message: Message) -> Message {
        let client = self.client();
        match message {
            Message::Prepare(version) => Message::Prepare(self.another_version(version)),
            Message::Prepared { item, stamp } => match self.random.below(3) {
                0 => Message::Prepared { item: self.item(), stamp },
                1 => Message::Prepared { item, stamp: before(stamp) },
                _ => Message::Prepared { item, stamp: self.some_stamp() },
            },
            Message::Commit { partition, stamp } => match self.random.below(2) {
                0 => {
                    let partition = self.random.below(self.tables.sizes.partitions);
                    Message::Commit { partition, stamp }
                }
                _ => Message::Commit { partition, stamp: self.some_stamp() },
            },
            Message::Get { client: of, item, stamp } => match self.random.below(6) {
                0 => Message::Get { client, item, stamp },
                1 => Message::Get { client: of, item: self.item(), stamp },
                2 => Message::FirstGet { client: of, item },
                _ => {
                    let stamp = self.another_stamp(item);
                    self.ask(of, item, stamp);
                    Message::Get { client: of, item, stamp }
                }
            },
            Message::Got { client: of, version, latest } => match self.random.below(6) {
                0 => Message::Got { client, version, latest },
                1 => Message::FirstReply { client: of, version, latest },
                2 | 3 => {
                    let latest = self.another_entry(version.item, latest);
                    Message::Got { client: of, version, latest }
                }
                _ => {
                    let version = self.another_version(version);
                    self.ask(of, version.item, version.stamp);
                    Message::Got { client: of, version, latest }
                }
            },
            Message::FirstGet { client: of, item } => match self.random.below(3) {
                0 => Message::FirstGet { client, item },
                1 => Message::FirstGet { client: of, item: self.item() },
                _ => Message::Get { client: of, item, stamp: Stamp::INITIAL },
            },
            Message::FirstReply { client: of, version, latest } => match self.random.below(6) {
                0 => Message::FirstReply { client, version, latest },
                1 => Message::Got { client: of, version, latest },
                2 | 3 => {
                    let latest = self.another_entry(version.item, latest);
                    Message::FirstReply { client: of, version, latest }
                }
                _ => {
                    let version = self.another_version(version);
                    Message::FirstReply { client: of, version, latest }
                }
            },
        }
    }

    /// Mostly the client asks for the stamp.
    fn ask(&mut self, client: u64, item: u64, stamp: Stamp) {
        if self.random.percent(80) {
            let record = self.tables.client_mut(client);
            if record.set >> item & 1 == 1 {
                record.stamps[item as usize] = stamp;
            }
        }
    }

    fn any_message(&mut self) -> Message {
        let (client, item, stamp) = (self.client(), self.item(), self.some_stamp());
        let partition = self.random.below(self.tables.sizes.partitions);
        let latest = self.tables.latest[item as usize];
        let initial = Version { item, value: 0, stamp: Stamp::INITIAL, set: 0 };
        match self.random.below(9) {
            0 => Message::Prepare(Version { item, value: 5, stamp, set: self.set() | 1 << item }),
            1 => Message::Prepared { item, stamp },
            2 => Message::Get { client, item, stamp },
            3 => Message::FirstGet { client, item },
            4 => Message::Got { client, version: initial, latest },
            5 => Message::FirstReply { client, version: initial, latest },
            _ => Message::Commit { partition, stamp },
        }
    }
}

/// The client's stamp before this one.
pub(super) fn before(stamp: Stamp) -> Stamp {
    Stamp::new((stamp.number - 1).max(1), stamp.client)
}
