//! A client has something under way that no call need have begun: what it asks for is stored, what
//! it awaits is in flight, and no rule of the check is broken.

use super::{entry_of, Maker};
use crate::set::items;
use crate::stamp::Stamp;
use crate::store::message::{Message, COMMIT};
use crate::store::tables::{
    Client, Version, WritePart, FIRST_PART, MIXING, READING, SECOND_PART, WRITING,
};

impl Maker {
    pub(super) fn begin(&mut self, client: u64) {
        let set = match self.set() {
            0 => 1 << self.item(),
            set => set,
        };
        let record = *self.tables.client(client);
        let mut begun = Client { set, ..Client::resting(record.count, record.last) };
        match self.random.below(6) {
            0 => self.begin_read(client, &mut begun),
            1 => self.begin_first_part(client, &mut begun),
            2 | 3 => self.begin_second_part(client, &mut begun),
            _ => self.begin_write(client, &mut begun),
        }
        // Whatever is awaited of either part.
        if !begun.awaits_none() {
            *self.tables.client_mut(client) = begun;
        } else {
            self.tables.messages.retain(|of| of.kind() == COMMIT || of.client() != client);
        }
    }

    /// Each item is asked for, answered in flight, or answered, with whatever came.
    fn begin_read(&mut self, client: u64, begun: &mut Client) {
        begun.mode = READING;
        for item in items(begun.set) {
            let version = self.some_whole(item);
            begun.stamps[item as usize] = version.stamp;
            self.ask_or_answer(client, begun, version);
        }
    }

    /// A get or got of the version joins, or it has come and its value may be any.
    fn ask_or_answer(&mut self, client: u64, begun: &mut Client, version: Version) {
        let Version { item, stamp, .. } = version;
        let latest = entry_of(self.some_whole(item));
        let message = match self.random.below(3) {
            0 => {
                begun.values[item as usize] = self.random.below(1 << 32);
                return;
            }
            1 => Message::Get { client, item, stamp },
            _ => Message::Got { client, version, latest },
        };
        begun.awaited |= 1 << item;
        self.tables.messages.push(message);
    }

    fn begin_first_part(&mut self, client: u64, begun: &mut Client) {
        begun.mode = FIRST_PART;
        for item in items(begun.set) {
            let version = self.some_whole(item);
            let latest = entry_of(self.some_whole(item));
            let message = match self.random.below(3) {
                0 => {
                    keep(begun, version);
                    continue;
                }
                1 => Message::FirstGet { client, item },
                _ => Message::FirstReply { client, version, latest },
            };
            begun.awaited |= 1 << item;
            self.tables.messages.push(message);
        }
    }

    /// Of each item a first reply is kept, and mostly another version asked for.
    fn begin_second_part(&mut self, client: u64, begun: &mut Client) {
        begun.mode = SECOND_PART;
        for item in items(begun.set) {
            let [first, again] = [(); 2].map(|()| self.some_whole(item));
            keep(begun, first);
            begun.stamps[item as usize] = again.stamp;
            if first.stamp != again.stamp {
                self.ask_or_answer(client, begun, again);
            }
        }
    }

    /// Each item's prepare is in flight, or it is stored and its reply in flight or come; now and
    /// then a read goes beside it.
    fn begin_write(&mut self, client: u64, begun: &mut Client) {
        begun.count += 1;
        let stamp = Stamp::new(begun.count, client);
        let set = begun.set;
        let mut write = WritePart { set, stamp, ..WritePart::NONE };
        for item in items(set) {
            let value = self.random.below(1 << 32);
            write.values[item as usize] = value;
            let version = Version { item, value, stamp, set };
            let message = match self.random.below(3) {
                0 => Message::Prepare(version),
                way => {
                    self.tables.versions.push(version);
                    match way {
                        1 => Message::Prepared { item, stamp },
                        _ => continue,
                    }
                }
            };
            write.awaited |= 1 << item;
            self.tables.messages.push(message);
        }
        if self.random.once_in(3) {
            begun.set = self.set() | 1 << self.item();
            self.begin_read(client, begun);
            (begun.mode, begun.write) = (MIXING, write);
        } else {
            begun.mode = WRITING;
            (begun.awaited, begun.values) = (write.awaited, write.values);
            items(set).for_each(|item| begun.stamps[item as usize] = stamp);
        }
    }

    /// The initial version of the item, or one whose write is stored on all its items.
    fn some_whole(&mut self, item: u64) -> Version {
        let of_item = self.tables.versions.iter().filter(|of| of.item == item);
        let mut whole: Vec<Version> = of_item.filter(|of| self.is_whole(of)).copied().collect();
        whole.push(Version { item, value: 0, stamp: Stamp::INITIAL, set: 0 });
        self.random.pick(&whole)
    }
}

/// The client keeps the version as its first reply, and its value.
fn keep(begun: &mut Client, version: Version) {
    let place = version.item as usize;
    (begun.firsts[place], begun.values[place]) = (entry_of(version), version.value);
}
