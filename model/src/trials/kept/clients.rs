//! A client is another: its count, what it awaits, keeps and writes, and what it ended last.

use super::Maker;
use crate::set::{has, items, without};
use crate::store::message::{Message, COMMIT, GET, GOT};
use crate::store::tables::{
    Client, FAST_READ, FIRST_PART, IDLE, ITEMS, MIXED, MIXING, NONE, READ, READING, SECOND_PART,
    WRITE, WRITING,
};

impl Maker {
    pub(super) fn change_client(&mut self) {
        let client = self.client();
        match self.random.below(10) {
            0 => self.change_count(client),
            1 => self.change_awaited(client),
            2 | 3 if self.tables.client(client).first_replied() != 0 => self.change_kept(client),
            2..5 => self.change_running(client),
            5 => self.change_last(client),
            6 => self.abandon(client),
            7 => self.change_mode(client),
            8 => self.fetch_again(client),
            _ => self.fill_idle(client),
        }
    }

    fn change_count(&mut self, client: u64) {
        let numbers = self.tables.versions.iter().filter(|of| of.stamp.client == client);
        let greatest = numbers.map(|of| of.stamp.number).max().unwrap_or(0);
        let count = self.tables.client(client).count;
        self.tables.client_mut(client).count = match self.random.below(5) {
            0 => count + 1,
            1 => count.saturating_sub(1),
            2 => greatest,
            3 => greatest.saturating_sub(1),
            _ => count + self.random.below(1_000),
        };
    }

    /// An item more or less.
    fn change_awaited(&mut self, client: u64) {
        let item = self.item();
        let record = self.tables.client_mut(client);
        match record.mode {
            MIXING if self.random.percent(50) => {
                record.write.awaited ^= record.write.set & 1 << item
            }
            IDLE => (),
            _ => record.awaited ^= record.set & 1 << item,
        }
    }

    /// Of a first reply that is kept: the entry, its set or its value.
    fn change_kept(&mut self, client: u64) {
        let kept: Vec<u64> = items(self.tables.client(client).first_replied()).collect();
        if kept.is_empty() {
            return;
        }
        let item = self.random.pick(&kept);
        let place = item as usize;
        let first = self.tables.client(client).firsts[place];
        let entry = self.another_entry(item, first);
        let stored = self.tables.version(item, entry.stamp).map_or(0, |version| version.value);
        let record = self.tables.client_mut(client);
        match self.random.below(4) {
            0 => record.values[place] = self.random.below(1 << 32),
            1 => record.firsts[place] = entry,
            _ => (record.firsts[place], record.values[place]) = (entry, stored),
        }
        // In the second part the stamp that is shown is that of the first reply, or of the second.
        if record.mode == SECOND_PART && !has(record.awaited, item) && self.random.percent(50) {
            record.stamps[place] = entry.stamp;
        }
    }

    /// A stamp asked for, an answer, or a value that is written.
    fn change_running(&mut self, client: u64) {
        let item = self.item() as usize;
        let (stamp, value) = (self.some_stamp(), self.random.below(1 << 32));
        let record = self.tables.client_mut(client);
        match (record.mode, self.random.below(3)) {
            (IDLE, _) => (),
            (WRITING, _) => record.values[item] = value,
            (MIXING, 0) => record.write.values[item] = value,
            (_, 1) => record.values[item] = value,
            _ => record.stamps[item] = stamp,
        }
    }

    fn change_last(&mut self, client: u64) {
        let (set, stamp) = (self.set(), self.some_stamp());
        let mut last = self.tables.client(client).last;
        match self.random.below(4) {
            0 => last.kind = self.random.pick(&[NONE, READ, WRITE, FAST_READ, MIXED]),
            1 => last.stamp = stamp,
            2 => (last.set, last.write_set) = (set, self.set()),
            _ => {
                last.stamps = [stamp; ITEMS];
                last.values = [self.random.below(1 << 32); ITEMS];
            }
        }
        self.tables.client_mut(client).last = last;
    }

    /// The client is idle, and nothing of what it had under way is in flight.
    pub(super) fn abandon(&mut self, client: u64) {
        let record = self.tables.client_mut(client);
        *record = Client::resting(record.count, record.last);
        self.tables.messages.retain(|of| of.kind() == COMMIT || of.client() != client);
    }

    fn change_mode(&mut self, client: u64) {
        let record = self.tables.client_mut(client);
        if [READING, FIRST_PART, SECOND_PART].contains(&record.mode) {
            record.mode = self.random.pick(&[READING, FIRST_PART, SECOND_PART]);
        }
    }

    /// A fast read's second part in which an item awaits no second answer any more.
    fn fetch_again(&mut self, client: u64) {
        let record = self.tables.client_mut(client);
        let again = record.awaited;
        if record.mode != SECOND_PART || again.count_ones() < 2 {
            return;
        }
        let item = u64::from(again.trailing_zeros());
        record.awaited = without(again, item);
        let is_its = |of: &Message| {
            of.client() == client
                && [GET, GOT].contains(&of.kind())
                && of.parts().item == Some(item)
        };
        self.tables.messages.retain(|message| !is_its(message));
    }

    /// An idle client has a set, which no transaction has.
    fn fill_idle(&mut self, client: u64) {
        let (set, stamp) = (self.set(), self.some_stamp());
        let record = self.tables.client_mut(client);
        if record.mode == IDLE {
            record.set = set;
            items(set).for_each(|item| record.stamps[item as usize] = stamp);
        }
    }
}
