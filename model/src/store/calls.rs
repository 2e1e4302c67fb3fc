//! The calls. Any number may be passed; a refusal changes nothing.

use super::check;
use super::fault::{self, Fault};
use super::range::GREATEST;
use super::refusals;
use super::shown::shown_frame;
use super::tables::{Client, Sizes, Tables, FIRST_PART, ITEMS, SECOND_PART, WIDEST_WRITE};
use super::Store;
use crate::answer::Answer;
use crate::call::{Call, Event};
use crate::frames::log::{Manner, Shown};
use std::borrow::Cow;

impl Store {
    /// Makes the call, with this output for a showing.
    pub fn call(&mut self, call: &Call, output: &mut [u8]) -> Answer {
        match call {
            Call::Fresh { long_enough, clients, partitions, items } => {
                self.fresh(*long_enough, Sizes::new(*clients, *partitions, *items))
            }
            Call::Read { client, set } => self.start_read(*client, *set),
            Call::FastRead { client, set } => self.start_fast_read(*client, *set),
            Call::Write { client, set, values } => self.start_write(*client, *set, values),
            Call::Mixed { client, read, write, values } => {
                self.start_mixed(*client, *read, *write, values)
            }
            Call::Deliver { place } => self.deliver(*place),
            Call::Show { client, .. } => self.show(*client, output),
            Call::Clear => self.clear(),
            Call::HandOver { giver, receiver } => self.hand_over(*giver, *receiver),
            Call::Compare { first, second } => self.compare(*first, *second),
            Call::Check => self.check(),
        }
    }

    /// Makes the call of a list.
    pub fn make(&mut self, call: Call) -> (Answer, Event) {
        let mut output = call.output();
        let answer = self.call(&call, &mut output);
        let event = Event { call, answer: answer.number(), output };
        (answer, event)
    }

    /// Makes fresh tables. Whether the block is long enough is known to the layer that holds it.
    pub fn fresh(&mut self, long_enough: bool, sizes: Sizes) -> Answer {
        if let Some(refusal) = refusals::fresh(long_enough, sizes) {
            return Answer::Refused(refusal);
        }
        self.tables = Tables::fresh(sizes);
        Answer::Fresh
    }

    /// Starts a read of the items of the set.
    pub fn start_read(&mut self, client: u64, set: u64) -> Answer {
        let tables = match self.fault {
            Some(Fault::FastReaderReads) => Cow::Owned(self.with_fast_readers_idle()),
            _ => Cow::Borrowed(&self.tables),
        };
        let refusal = refusals::start_read(&tables, self.load(), client, set);
        if let Some(refusal) = self.spoilt(refusal, 8) {
            return Answer::Refused(refusal);
        }
        self.step_start_read(client, set);
        self.started()
    }

    /// Starts a fast read of the items of the set, with the checks of a read.
    pub fn start_fast_read(&mut self, client: u64, set: u64) -> Answer {
        let tables = match self.fault {
            Some(Fault::FastReaderStarts) => Cow::Owned(self.with_fast_readers_idle()),
            _ => Cow::Borrowed(&self.tables),
        };
        let refusal = refusals::start_read(&tables, self.load(), client, set);
        if let Some(refusal) = self.spoilt(refusal, 8) {
            return Answer::Refused(refusal);
        }
        self.step_start_fast_read(client, set);
        self.started()
    }

    /// Starts a write of the set, with four value bytes for each of its items, ascending.
    pub fn start_write(&mut self, client: u64, set: u64, values: &[u8]) -> Answer {
        let refusal = self.write_refusal(client, &[set], values);
        if let Some(refusal) = self.spoilt(refusal, 9) {
            return Answer::Refused(refusal);
        }
        self.step_start_write(client, set, values);
        self.started()
    }

    /// Starts a mixed transaction that reads one set and writes another, with four value bytes for
    /// each item written, ascending.
    pub fn start_mixed(&mut self, client: u64, read: u64, write: u64, values: &[u8]) -> Answer {
        let sets: &[u64] = match self.has(Fault::EmptyReadSet) && read == 0 {
            true => &[write],
            false => &[read, write],
        };
        let refusal = self.write_refusal(client, sets, values);
        let refusal = self.spoilt_mixed_start(refusal, read, write);
        if let Some(refusal) = self.spoilt(refusal, 9) {
            return Answer::Refused(refusal);
        }
        self.step_start_mixed(client, read, write, values);
        self.started()
    }

    /// The refusal of a start with these sets, of which the last is written, but for faults in it.
    fn write_refusal(&self, client: u64, sets: &[u64], values: &[u8]) -> Option<u64> {
        let tables = match self.fault {
            Some(Fault::SevenByCount) => Cow::Owned(self.with_smaller_views()),
            _ => Cow::Borrowed(&self.tables),
        };
        let widest = match self.fault {
            Some(Fault::AnyWidth) => ITEMS as u64,
            Some(Fault::WidestWriteRefused) => WIDEST_WRITE - 1,
            _ => WIDEST_WRITE,
        };
        let load = self.load();
        match refusals::start_write(&tables, load, widest, client, sets, values) {
            Some(17)
                if self.has(Fault::WidthAfterSeven)
                    && self.tables.greatest_number(client) == GREATEST =>
            {
                Some(7)
            }
            refusal => refusal,
        }
    }

    /// Delivers the message at a place in the list.
    pub fn deliver(&mut self, place: u64) -> Answer {
        let refusal = refusals::deliver(&self.tables, place);
        let refusal = self.spoilt_delivery(refusal, place);
        if let Some(refusal) = self.spoilt(refusal, 0) {
            return Answer::Refused(refusal);
        }
        let kind = self.tables.messages[place as usize].kind();
        let outcome = self.step_deliver(place as usize);
        Answer::Delivered { kind, messages: self.answered_length(), outcome }
    }

    /// Writes the log frame of the client's last ended transaction; output past it keeps its bytes.
    pub fn show(&self, client: u64, output: &mut [u8]) -> Answer {
        let refusal = refusals::show(&self.tables, client, output.len());
        if let Some(refusal) = self.spoilt(refusal, 0) {
            return Answer::Refused(refusal);
        }
        let mut frame = shown_frame(&self.tables, client).expect("a transaction has ended");
        if let (true, Some(read)) = (self.has(Fault::InitialReads), &mut frame.read) {
            read.shown.fill(Shown::INITIAL);
        }
        if let (true, Some(read)) = (self.has(Fault::ShownAsOrdinary), &mut frame.read) {
            read.manner = Manner::Ordinary;
        }
        if self.has(Fault::ShownAsAWrite) && frame.write.is_some() {
            frame.read = None;
        }
        let bytes = match self.fault {
            Some(Fault::PartsSwapped) => frame.bytes_with_parts_swapped(),
            _ => frame.bytes(),
        };
        output[..bytes.len()].copy_from_slice(&bytes);
        Answer::Shown { length: bytes.len() as u64 }
    }

    /// Drops the stored versions whose stamp nothing names any more, and answers how many went.
    pub fn clear(&mut self) -> Answer {
        let refusal = match refusals::clear(&self.tables) {
            None if self.has(Fault::ClearingWaits) && !fault::all_idle(&self.tables) => Some(4),
            refusal => refusal,
        };
        if let Some(refusal) = self.spoilt(refusal, 0) {
            return Answer::Refused(refusal);
        }
        let before = self.tables.versions.len() as u64;
        self.step_clear();
        let kept = self.tables.versions.len() as u64;
        let gone = if self.has(Fault::AnswersWhatStays) { kept } else { before - kept };
        Answer::Cleared { gone }
    }

    /// The receiver takes over what the giver has seen.
    pub fn hand_over(&mut self, giver: u64, receiver: u64) -> Answer {
        let refusal = refusals::hand_over(&self.tables, giver, receiver);
        let refusal = self.spoilt_hand_over(refusal, giver, receiver);
        if let Some(refusal) = self.spoilt(refusal, 0) {
            return Answer::Refused(refusal);
        }
        self.step_hand_over(giver, receiver);
        Answer::HandedOver { giver, receiver }
    }

    /// Tells how the first client's view stands to the second's.
    pub fn compare(&self, first: u64, second: u64) -> Answer {
        let refusal = refusals::compare(&self.tables, first, second);
        let refusal = self.spoilt_comparison(refusal, first, second);
        if let Some(refusal) = self.spoilt(refusal, 0) {
            return Answer::Refused(refusal);
        }
        Answer::Compared { standing: self.standing(first, second) }
    }

    /// Tells whether the tables are as good as those that the calls make.
    pub fn check(&self) -> Answer {
        let refusal = match self.fault {
            Some(Fault::Check(misread)) => check::misread(&self.tables, misread),
            _ => refusals::check(&self.tables),
        };
        match self.spoilt(refusal, 0) {
            Some(refusal) => Answer::Refused(refusal),
            None => Answer::Checked,
        }
    }

    fn started(&self) -> Answer {
        Answer::Started { messages: self.answered_length() }
    }

    fn answered_length(&self) -> u64 {
        let made_up = u64::from(self.has(Fault::LengthMadeUp));
        self.tables.messages.len() as u64 + made_up
    }

    /// The tables, with no view that alone would give 7.
    fn with_smaller_views(&self) -> Tables {
        let mut tables = self.tables.clone();
        let seen = tables.view.iter_mut().flatten().map(|entry| &mut entry.stamp.number);
        for number in seen.filter(|number| **number == GREATEST) {
            *number -= 1;
        }
        tables
    }

    /// The tables, with no fast read under way.
    fn with_fast_readers_idle(&self) -> Tables {
        let mut tables = self.tables.clone();
        for client in tables.clients.iter_mut() {
            if [FIRST_PART, SECOND_PART].contains(&client.mode) {
                *client = Client::resting(client.count, client.last);
            }
        }
        tables
    }

    /// The refusal, unless a fault gives another: `full` is what a full store answers, 0 if it
    /// never does.
    fn spoilt(&self, refusal: Option<u64>, full: u64) -> Option<u64> {
        if self.has(Fault::TurnsAllAway)
            || self.has(Fault::WideSetsRefused) && fault::holds_a_wide_set(&self.tables)
        {
            return Some(1);
        }
        if self.has(Fault::FullWhileEmpty) && full != 0 {
            return refusal.or(Some(full));
        }
        refusal
    }
}
