//! Mixed transactions (document 02, P8): "a read set and a write set with values; its gets join
//! first, then its prepares". "It ends, with outcome 02, when all replies of both kinds are in;
//! written lines enter the view and commits go then."

use super::fault::Fault;
use super::steps::values_of;
use super::tables::{
    Client, Ended, WritePart, ITEMS, LOAD_CAPACITY, MIXED, MIXING, VERSION_CAPACITY, WIDEST_WRITE,
};
use super::Store;
use crate::answer::{NONE_ENDED, READ_ENDED, WRITE_ENDED};
use crate::set::{has, items, size, without};

impl Store {
    /// "Its reads show the entries chosen at the start, also for lines it writes": the stamps to
    /// ask for are chosen from the view as it was before.
    pub(super) fn step_start_mixed(&mut self, client: u64, read: u64, set: u64, given: &[u8]) {
        let stamp = self.take_number(client, set);
        if self.has(Fault::OwnWriteAskedFor) {
            self.see_write(client, stamp, set);
        }
        let stamps = self.stamps_to_ask_for(client, read);
        let values = values_of(set, given);
        if self.has(Fault::PreparesBeforeGets) {
            self.send_prepares(set, stamp, &values);
            self.send_gets(client, read, &stamps);
        } else {
            self.send_gets(client, read, &stamps);
            self.send_prepares(set, stamp, &values);
        }
        let write = WritePart { set, awaited: set, stamp, values };
        let record = self.tables.client_mut(client);
        *record = Client {
            mode: MIXING,
            set: read,
            awaited: read,
            stamps,
            values: [0; ITEMS],
            write,
            ..*record
        };
        if self.has(Fault::MixedViewAtStart) {
            self.see_write(client, stamp, set);
        }
    }

    /// Strikes the item from those that the write part awaits.
    pub(super) fn deliver_prepared_to_mixed(&mut self, client: u64, item: u64) -> u64 {
        let strikes_both = self.has(Fault::SharedItemStruckTwice);
        let record = self.tables.client_mut(client);
        record.write.awaited = without(record.write.awaited, item);
        if strikes_both {
            record.awaited = without(record.awaited, item);
        }
        let WritePart { set, awaited, stamp, .. } = record.write;
        if awaited == 0 {
            match self.fault {
                Some(Fault::ViewWithTheLastPrepared) => self.see_write(client, stamp, set),
                Some(Fault::CommitsWithTheLastPrepared) => self.send_commits(stamp, set),
                Some(Fault::EndsWithTheLastPrepared) => return self.end_mixed(client, true),
                _ => (),
            }
        }
        self.end_mixed_if_over(client, true)
    }

    /// The got is kept and struck from those that the read part awaits.
    pub(super) fn got_delivered_to_mixed(&mut self, client: u64, item: u64) -> u64 {
        let strikes_both = self.has(Fault::SharedItemStruckTwice);
        let ends = self.has(Fault::EndsWithTheLastGot);
        let record = self.tables.client_mut(client);
        if strikes_both {
            record.write.awaited = without(record.write.awaited, item);
        }
        if record.awaited == 0 && ends {
            return self.end_mixed(client, false);
        }
        self.end_mixed_if_over(client, false)
    }

    fn end_mixed_if_over(&mut self, client: u64, with_prepared: bool) -> u64 {
        if self.tables.client(client).awaits_none() {
            self.end_mixed(client, with_prepared)
        } else {
            NONE_ENDED
        }
    }

    /// The written items enter the view, and the commits join.
    fn end_mixed(&mut self, client: u64, with_prepared: bool) -> u64 {
        let record = self.tables.client(client);
        let WritePart { set, stamp, values, .. } = record.write;
        let mut ended = Ended {
            kind: MIXED,
            set: record.set,
            stamp,
            stamps: record.stamps,
            values: record.values,
            write_set: set,
            write_values: values,
        };
        self.spoil_chosen(client, &mut ended);
        let record = self.tables.client_mut(client);
        *record = Client::resting(record.count, ended);
        if with_prepared || !self.has(Fault::GotLeavesTheView) {
            self.see_write(client, stamp, set);
        }
        let are_sent = match self.fault {
            Some(Fault::CommitsWithTheLastPrepared) => true,
            Some(Fault::GotSendsNoCommits) => !with_prepared,
            _ => false,
        };
        if !are_sent {
            self.send_commits(stamp, set);
        }
        if self.has(Fault::GotEndsARead) && !with_prepared {
            return READ_ENDED;
        }
        WRITE_ENDED
    }

    /// For faults alone: what an ordinary read or a mixed transaction shows besides the entries
    /// chosen at its start.
    pub(super) fn spoil_chosen(&self, client: u64, ended: &mut Ended) {
        for item in items(ended.set) {
            let place = item as usize;
            match self.fault {
                Some(Fault::ChosenAtTheEnd) => {
                    let chosen = self.stamp_to_ask_for(client, ended.set, item);
                    ended.stamps[place] = chosen;
                    ended.values[place] = self.version_of(item, chosen).value;
                }
                Some(Fault::OwnWriteShown) if has(ended.write_set, item) => {
                    ended.stamps[place] = ended.stamp;
                    ended.values[place] = ended.write_values[place];
                }
                _ => (),
            }
        }
    }

    /// The refusal of a mixed start, unless a fault gives another.
    pub(super) fn spoilt_mixed_start(
        &self,
        refusal: Option<u64>,
        read: u64,
        write: u64,
    ) -> Option<u64> {
        let both = size(read) + size(write);
        // There is no place for more messages than the capacity, whatever is counted.
        let fits = |joining: u64| {
            let messages = self.tables.messages.len() as u64;
            (self.tables.load() + joining).max(messages + both) <= LOAD_CAPACITY
        };
        let is_narrow = matches!(refusal, None | Some(7..=9));
        match (self.fault, refusal) {
            (Some(Fault::SharedItemOnce), Some(8)) if fits(size(read | write)) => None,
            (Some(Fault::WrittenItemsAloneInTheLoad), Some(8)) if fits(size(write)) => None,
            (Some(Fault::WidthOfBothSets), _) if is_narrow && both > WIDEST_WRITE => Some(17),
            (Some(Fault::NineOfBothSets), None)
                if self.tables.versions_and_prepares() + both > VERSION_CAPACITY =>
            {
                Some(9)
            }
            _ => refusal,
        }
    }
}
