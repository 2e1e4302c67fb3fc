//! The walk along the list: each event moves the history on and is held against the clauses.

use super::history::History;
use super::{clauses, held, showings, summing, Clause, Summary};
use crate::answer::{Answer, NONE_ENDED};
use crate::call::{Call, Event};
use crate::frames::log::Manner;
use crate::set::size;
use crate::store::tables::{Tables, VERSION_CAPACITY};

/// The history and summary of the events so far.
#[derive(Default)]
pub(super) struct Checker {
    history: History,
    begun: bool,
    /// The time of the first event.
    first: usize,
    pub(super) summary: Summary,
}

impl From<&Tables> for Checker {
    /// Of a list that begins with a block which a check has accepted.
    fn from(held: &Tables) -> Checker {
        Checker {
            history: held::history(held),
            begun: true,
            first: held::FIRST,
            ..Checker::default()
        }
    }
}

impl Checker {
    /// Holds the event at this place in the list against every clause.
    pub(super) fn check(&mut self, place: usize, event: &Event) -> Result<(), Clause> {
        let time = self.first + place;
        let answer = Answer::of(&event.call, event.answer).ok_or(Clause::Answer)?;
        clauses::output_keeps_its_bytes(event, answer)?;
        match (&event.call, answer) {
            (Call::Fresh { partitions, .. }, Answer::Fresh) => {
                self.begun = true;
                self.history = History::new(*partitions);
            }
            _ if !self.begun => return Err(Clause::Fresh),
            (Call::Read { client, set }, Answer::Started { .. }) => {
                self.history.start_read(time, *client, *set, Manner::Ordinary);
            }
            (Call::FastRead { client, set }, Answer::Started { .. }) => {
                self.history.start_read(time, *client, *set, Manner::Fast);
            }
            (Call::Write { client, set, values }, Answer::Started { .. }) => {
                self.sum_up_places(*set);
                self.history.start_write(time, *client, *set, values);
            }
            (Call::Mixed { client, read, write, values }, Answer::Started { .. }) => {
                self.sum_up_places(*write);
                self.history.start_mixed(time, *client, [*read, *write], values);
            }
            (Call::Write { set, .. } | Call::Mixed { write: set, .. }, _) => {
                clauses::freed_places_serve(&self.history, *set, answer)?;
            }
            (Call::Deliver { place: at }, _) => self.deliver(time, *at, answer)?,
            (Call::Show { client, .. }, _) => self.show(*client, event, answer)?,
            (Call::Clear, _) => {
                let gone = clauses::clearing_takes_stored_versions(&self.history, answer)?;
                self.history.clear(gone);
                self.summary.gone += gone;
            }
            (Call::HandOver { giver, receiver }, Answer::HandedOver { .. }) => {
                self.history.hand_over(*giver, *receiver);
            }
            (Call::Check, _) => {
                clauses::check_is_accepted(answer)?;
                self.summary.checks += 1;
            }
            (Call::Fresh { .. } | Call::Read { .. } | Call::FastRead { .. }, _)
            | (Call::HandOver { .. } | Call::Compare { .. }, _) => (),
        }
        clauses::length_is_that_of_the_list(&self.history, answer)?;
        clauses::fast_reads_are_bounded(&self.history, time)?;
        clauses::one_message_for_each_awaited_item(&self.history)?;
        clauses::fast_reads_send_in_two_rounds(&self.history, time)?;
        Ok(())
    }

    /// A write of the set is about to start, alone or in a mixed transaction.
    fn sum_up_places(&mut self, set: u64) {
        let taken = self.history.places_taken() + size(set);
        self.summary.served += usize::from(taken > VERSION_CAPACITY);
    }

    fn deliver(&mut self, time: usize, at: u64, answer: Answer) -> Result<(), Clause> {
        clauses::delivery_accepted_within_the_list_alone(&self.history, at, answer)?;
        let Answer::Delivered { kind, outcome, .. } = answer else {
            return Ok(());
        };
        let label = self.history.deliver(time, at as usize);
        summing::delivery(&mut self.summary, &self.history, &label, outcome);
        clauses::kind_is_that_of_the_message(&label, kind)?;
        clauses::ends_with_its_last_reply_alone(&self.history, &label, outcome)?;
        if outcome != NONE_ENDED {
            self.history.end(time, label.client);
        }
        Ok(())
    }

    fn show(&mut self, client: u64, event: &Event, answer: Answer) -> Result<(), Clause> {
        if let Some(frame) = showings::check(&self.history, client, event, answer)? {
            self.history.show(client, &frame);
            summing::showing(&mut self.summary, &self.history, client, &frame);
        }
        Ok(())
    }
}
