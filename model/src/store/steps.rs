//! The steps: what an accepted start or delivery does to the tables, which are in range.

use super::fault::Fault;
use super::message::Message;
use super::tables::{
    Client, Ended, Version, FAST_READ, ITEMS, MIXING, READ, READING, SECOND_PART, WRITE, WRITING,
};
use super::Store;
use crate::answer::{NONE_ENDED, READ_ENDED, WRITE_ENDED};
use crate::set::{has, items, without};
use crate::stamp::{Entry, Stamp};

impl Store {
    /// One get per item, ascending, for the stamp that the client's view chooses.
    pub(super) fn step_start_read(&mut self, client: u64, set: u64) {
        let stamps = self.stamps_to_ask_for(client, set);
        self.send_gets(client, set, &stamps);
        let record = self.tables.client_mut(client);
        *record =
            Client { mode: READING, set, awaited: set, stamps, values: [0; ITEMS], ..*record };
    }

    pub(super) fn stamps_to_ask_for(&self, client: u64, set: u64) -> [Stamp; ITEMS] {
        let mut stamps = [Stamp::INITIAL; ITEMS];
        for item in items(set) {
            stamps[item as usize] = self.stamp_to_ask_for(client, set, item);
        }
        stamps
    }

    pub(super) fn send_gets(&mut self, client: u64, set: u64, stamps: &[Stamp; ITEMS]) {
        let get = |item| Message::Get { client, item, stamp: stamps[item as usize] };
        self.tables.messages.extend(items(set).map(get));
    }

    /// The latest stamp among the view's own entry for the item and all view entries whose set
    /// contains it.
    pub(super) fn stamp_to_ask_for(&self, client: u64, set: u64, item: u64) -> Stamp {
        let entries = match self.fault {
            Some(Fault::PassEndsWithTheSet) => u64::BITS - set.leading_zeros(),
            _ => self.tables.sizes.items as u32,
        };
        let view = &self.tables.view(client)[..entries as usize];
        let own = match self.fault {
            Some(Fault::OwnEntryByItsSet) => Stamp::INITIAL,
            _ => view[item as usize].stamp,
        };
        let siblings = view.iter().filter(|entry| has(entry.set, item));
        self.latest(own, siblings.map(|entry| entry.stamp))
    }

    /// The next number becomes the count and with the client makes the stamp; one prepare per item,
    /// ascending.
    pub(super) fn step_start_write(&mut self, client: u64, set: u64, given: &[u8]) {
        let stamp = self.take_number(client, set);
        let values = values_of(set, given);
        self.send_prepares(set, stamp, &values);
        let mut stamps = [Stamp::INITIAL; ITEMS];
        items(set).for_each(|item| stamps[item as usize] = stamp);
        let record = self.tables.client_mut(client);
        *record = Client { mode: WRITING, set, awaited: set, stamps, values, ..*record };
        if self.has(Fault::ViewAtStart) {
            self.see_write(client, stamp, set);
        }
    }

    /// The stamp of the client's next write, whose number becomes its count.
    pub(super) fn take_number(&mut self, client: u64, set: u64) -> Stamp {
        let number = self.next_number(client, set);
        let by_one = self.has(Fault::CountByOne);
        let record = self.tables.client_mut(client);
        record.count = if by_one { record.count + 1 } else { number };
        Stamp::new(number, client)
    }

    pub(super) fn send_prepares(&mut self, set: u64, stamp: Stamp, values: &[u64; ITEMS]) {
        let version = |item| Version { item, value: values[item as usize], stamp, set };
        let prepares = items(set).map(|item| Message::Prepare(version(item)));
        self.tables.messages.extend(prepares);
    }

    /// 1 more than the greatest among the client's count and all numbers in its view.
    fn next_number(&self, client: u64, set: u64) -> u64 {
        let count = self.tables.client(client).count;
        let view = self.tables.view(client);
        1 + match self.fault {
            Some(Fault::CountAlone) => count,
            Some(Fault::WrittenViewAlone) => {
                items(set).map(|item| view[item as usize].stamp.number).fold(count, u64::max)
            }
            _ => self.tables.greatest_number(client),
        }
    }

    /// Takes the message out and does what its kind says.
    pub(super) fn step_deliver(&mut self, place: usize) -> u64 {
        let message = self.tables.messages.remove(place);
        if self.has(Fault::NothingAtDelivery) {
            return NONE_ENDED;
        }
        match message {
            Message::Prepare(version) => {
                self.tables.versions.push(version);
                self.tables
                    .messages
                    .push(Message::Prepared { item: version.item, stamp: version.stamp });
                NONE_ENDED
            }
            Message::Prepared { item, stamp } => self.deliver_prepared(item, stamp),
            Message::Commit { partition, stamp } => self.deliver_commit(partition, stamp),
            Message::Get { client, item, stamp } => self.deliver_get(client, item, stamp),
            Message::Got { client, version, latest } => self.deliver_got(client, version, latest),
            Message::FirstGet { client, item } => self.deliver_first_get(client, item),
            Message::FirstReply { client, version, latest } => {
                self.deliver_first_reply(client, version, latest)
            }
        }
    }

    /// Strikes the item from those awaited; with the last one the write ends.
    fn deliver_prepared(&mut self, item: u64, stamp: Stamp) -> u64 {
        let client = stamp.client;
        if self.tables.client(client).mode == MIXING {
            return self.deliver_prepared_to_mixed(client, item);
        }
        let record = self.tables.client_mut(client);
        record.awaited = without(record.awaited, item);
        if record.awaited != 0 {
            return NONE_ENDED;
        }
        let set = record.set;
        let ended = Ended { kind: WRITE, set, stamp, values: record.values, ..Ended::NONE };
        *record = Client::resting(record.count, ended);
        self.see_write(client, stamp, set);
        self.send_commits(stamp, set);
        WRITE_ENDED
    }

    /// One commit for each partition with a written item, ascending.
    pub(super) fn send_commits(&mut self, stamp: Stamp, set: u64) {
        for partition in 0..self.tables.sizes.partitions {
            if items(set).any(|item| self.tables.partition_of(item) == partition) {
                self.tables.messages.push(Message::Commit { partition, stamp });
            }
        }
    }

    /// Each written item's view entry becomes the later of itself and this write.
    pub(super) fn see_write(&mut self, client: u64, stamp: Stamp, set: u64) {
        for item in items(set) {
            self.see(client, item, Entry::new(stamp, set));
        }
    }

    /// The view entry of a reply's item becomes the later of itself and the version.
    pub(super) fn see_version(&mut self, client: u64, version: Version) {
        let item = version.item;
        let is_last = without(self.tables.client(client).awaited, item) == 0;
        let entry = Entry::new(version.stamp, version.set);
        match self.fault {
            Some(Fault::LatestAlone) => return,
            Some(Fault::VersionWithLastGot) if !is_last => return,
            Some(Fault::VersionToSiblings) => self.see_write(client, version.stamp, version.set),
            Some(Fault::TieTakesVersion)
                if self.tables.view(client)[item as usize].stamp == version.stamp =>
            {
                self.tables.view_mut(client)[item as usize] = entry;
            }
            _ => (),
        }
        self.see(client, item, entry);
    }

    /// The view entry becomes the later of itself and this one; with equal stamps it stays.
    pub(super) fn see(&mut self, client: u64, item: u64, entry: Entry) {
        let present = self.tables.view(client)[item as usize];
        if self.is_later(entry.stamp, present.stamp) {
            self.tables.view_mut(client)[item as usize] = entry;
        }
    }

    /// Each item of the partition with a stored version of the stamp takes it as latest if it is
    /// later.
    fn deliver_commit(&mut self, partition: u64, stamp: Stamp) -> u64 {
        for item in 0..self.tables.sizes.items {
            if self.tables.partition_of(item) != partition {
                continue;
            }
            let Some(version) = self.tables.version(item, stamp) else {
                continue;
            };
            let entry = Entry::new(stamp, version.set);
            let present = self.tables.latest[item as usize].stamp;
            if self.is_later(stamp, present) || self.has(Fault::LateCommit) {
                self.tables.latest[item as usize] = entry;
            }
        }
        NONE_ENDED
    }

    /// Appends a got with the version of exactly that stamp, and the item's latest.
    fn deliver_get(&mut self, client: u64, item: u64, stamp: Stamp) -> u64 {
        let mut version = self.version_of(item, stamp);
        if self.has(Fault::NewestVersion) {
            version = self.newest_version(version);
            self.tables.client_mut(client).stamps[item as usize] = version.stamp;
        }
        if self.has(Fault::GotWithoutSet) {
            version.set = 0;
        }
        let latest = self.tables.latest[item as usize];
        self.tables.messages.push(Message::Got { client, version, latest });
        NONE_ENDED
    }

    /// The version with exactly that stamp. The initial version has value 0 and the empty set.
    pub(super) fn version_of(&self, item: u64, stamp: Stamp) -> Version {
        let initial = Version { item, value: 0, stamp, set: 0 };
        self.tables.version(item, stamp).copied().unwrap_or(initial)
    }

    /// For faults alone: the newest stored version of the item, or this one.
    pub(super) fn newest_version(&self, version: Version) -> Version {
        let stored = self.tables.versions.iter().filter(|stored| stored.item == version.item);
        stored.fold(version, |newest, stored| match stored.stamp > newest.stamp {
            true => *stored,
            false => newest,
        })
    }

    /// For faults alone: the newest stored version of the item before the stamp, or this one.
    pub(super) fn newest_before(&self, version: Version, stamp: Stamp) -> Version {
        let stored = self.tables.versions.iter().filter(|stored| stored.item == version.item);
        let before = stored.filter(|stored| stored.stamp < stamp);
        before.max_by_key(|stored| stored.stamp).copied().unwrap_or(version)
    }

    /// Keeps the version as the item's answer and sees it after the latest; with the last one the
    /// read ends.
    fn deliver_got(&mut self, client: u64, version: Version, latest: Entry) -> u64 {
        let item = version.item;
        let is_second = self.tables.client(client).mode == SECOND_PART;
        if !(is_second && self.has(Fault::SecondGotsUnseen)) {
            self.see(client, item, latest);
            self.see_version(client, version);
        }
        let record = self.tables.client_mut(client);
        record.values[item as usize] = version.value;
        record.awaited = without(record.awaited, item);
        if record.mode == MIXING {
            return self.got_delivered_to_mixed(client, item);
        }
        if is_second {
            self.spoil_second_got(client, version, latest);
        }
        if self.tables.client(client).awaited != 0 {
            return self.outcome_before_the_end();
        }
        self.end_read(client)
    }

    /// The outcome of a reply after which a read awaits others.
    pub(super) fn outcome_before_the_end(&self) -> u64 {
        match self.fault {
            Some(Fault::EndAtFirstReply) => READ_ENDED,
            _ => NONE_ENDED,
        }
    }

    /// The read of the client has ended; of each item the last reply is shown.
    pub(super) fn end_read(&mut self, client: u64) -> u64 {
        let record = self.tables.client(client);
        let is_fast = record.mode == SECOND_PART;
        let mut ended = Ended {
            kind: if is_fast { FAST_READ } else { READ },
            set: record.set,
            stamps: record.stamps,
            values: record.values,
            ..Ended::NONE
        };
        if is_fast {
            self.spoil_shown(client, &mut ended);
        } else {
            self.spoil_chosen(client, &mut ended);
        }
        let record = self.tables.client_mut(client);
        *record = Client::resting(record.count, ended);
        READ_ENDED
    }

    /// The latest of this stamp and the others.
    pub(super) fn latest(&self, own: Stamp, others: impl Iterator<Item = Stamp>) -> Stamp {
        others.fold(own, |latest, stamp| match self.is_later(stamp, latest) {
            true => stamp,
            false => latest,
        })
    }

    /// Whether the stamp is later than the one already there.
    pub(super) fn is_later(&self, stamp: Stamp, present: Stamp) -> bool {
        if self.has(Fault::ClientsBeforeNumbers) {
            return (stamp.client, stamp.number) > (present.client, present.number);
        }
        stamp > present
    }
}

/// By item of the set: its value, from four bytes each, ascending.
pub(super) fn values_of(set: u64, given: &[u8]) -> [u64; ITEMS] {
    let mut values = [0; ITEMS];
    for (item, value) in items(set).zip(given.chunks(4)) {
        values[item as usize] =
            value.iter().fold(0, |number, byte| number * 256 + u64::from(*byte));
    }
    values
}
