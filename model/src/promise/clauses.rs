//! The clauses about answers, messages and ends.

use super::history::History;
use super::label::{Kind, Label};
use super::transaction::{Read, Transaction};
use super::Clause;
use crate::answer::{Answer, NONE_ENDED, READ_ENDED, WRITE_ENDED};
use crate::call::{Call, Event};
use crate::frames::log::Manner;
use crate::set::{items, size};

fn holds(kept: bool, clause: Clause) -> Result<(), Clause> {
    if kept {
        Ok(())
    } else {
        Err(clause)
    }
}

/// Output past an accepted frame keeps its bytes; a refused showing keeps them all.
pub(super) fn output_keeps_its_bytes(event: &Event, answer: Answer) -> Result<(), Clause> {
    let Call::Show { output: lent, .. } = &event.call else {
        return holds(event.output.is_empty(), Clause::Output);
    };
    let written = match answer {
        Answer::Shown { length } => lent.len().min(length as usize),
        _ => 0,
    };
    holds(
        event.output.len() == lent.len() && event.output[written..] == lent[written..],
        Clause::Output,
    )
}

/// A delivery at any place within the list is accepted; outside it, it is answered 10.
pub(super) fn delivery_accepted_within_the_list_alone(
    history: &History,
    place: u64,
    answer: Answer,
) -> Result<(), Clause> {
    if place < history.messages.len() as u64 {
        holds(answer.refusal() == 0, Clause::DeliveryWithinTheList)
    } else {
        holds(answer.refusal() == 10, Clause::DeliveryPastTheEnd)
    }
}

/// The kind answered is the delivered message's.
pub(super) fn kind_is_that_of_the_message(label: &Label, kind: u64) -> Result<(), Clause> {
    holds(kind == label.kind as u64, Clause::Kind)
}

/// The delivery after which all replies that a transaction awaits are in, and no other, reports it
/// ended: of a read its n-th reply, after exactly n requests and n replies; of a fast read that of
/// the last reply to its requests, of which there is one more for each item fetched again, once; of
/// a write its last prepared reply; of a mixed transaction the last reply of either kind, after
/// exactly n requests and n replies for the n items it reads.
pub(super) fn ends_with_its_last_reply_alone(
    history: &History,
    label: &Label,
    outcome: u64,
) -> Result<(), Clause> {
    let mut running = 0;
    for transaction in history.running(label.client) {
        running += 1;
        if transaction.held {
            continue;
        }
        let (read, write) = (transaction.read.as_ref(), transaction.write.as_ref());
        let is_reply =
            read.is_some() && label.is_reply() || write.is_some() && label.kind == Kind::Prepared;
        let is_last = is_reply && transaction.is_over();
        let (clause, ended) = match (read, write) {
            (Some(_), Some(_)) => (Clause::MixedEnd, WRITE_ENDED),
            (None, Some(_)) => (Clause::WriteEnd, WRITE_ENDED),
            (_, None) => (Clause::ReadEnd, READ_ENDED),
        };
        holds(outcome == if is_last { ended } else { NONE_ENDED }, clause)?;
        let all_requested = read.is_none_or(|read| read.requests.len() == read.replies_to_come());
        holds(!is_last || all_requested, clause)?;
    }
    let clause = if outcome == READ_ENDED { Clause::ReadEnd } else { Clause::WriteEnd };
    holds(outcome == NONE_ENDED || running > 0, clause)
}

/// The length answered is that of the list.
pub(super) fn length_is_that_of_the_list(history: &History, answer: Answer) -> Result<(), Clause> {
    match answer {
        Answer::Started { messages } | Answer::Delivered { messages, .. } => {
            holds(messages == history.messages.len() as u64, Clause::Length)
        }
        Answer::Refused(_)
        | Answer::Fresh
        | Answer::Shown { .. }
        | Answer::Cleared { .. }
        | Answer::HandedOver { .. }
        | Answer::Compared { .. }
        | Answer::Checked => Ok(()),
    }
}

/// A clearing is accepted, and takes away no more versions than are stored.
pub(super) fn clearing_takes_stored_versions(
    history: &History,
    answer: Answer,
) -> Result<u64, Clause> {
    match answer {
        Answer::Cleared { gone } if history.gone + gone <= history.stored => Ok(gone),
        _ => Err(Clause::Clearing),
    }
}

/// A write isn't refused by 9 if it has no more items than are left of the places that a clearing
/// freed.
pub(super) fn freed_places_serve(
    history: &History,
    set: u64,
    answer: Answer,
) -> Result<(), Clause> {
    holds(answer.refusal() != 9 || size(set) > history.freed, Clause::FreedPlaces)
}

/// A check is accepted.
pub(super) fn check_is_accepted(answer: Answer) -> Result<(), Clause> {
    holds(answer == Answer::Checked, Clause::Checking)
}

/// Every running read has exactly one request or reply of its client in the list for each item that
/// has had fewer replies than requests.
pub(super) fn one_message_for_each_awaited_item(history: &History) -> Result<(), Clause> {
    let running = history.transactions.iter().filter(|of| of.ended.is_none() && !of.held);
    for transaction in running {
        let Some(read) = &transaction.read else {
            continue;
        };
        let client = transaction.client;
        for item in items(read.set) {
            let awaited = read.replied(item) < read.requested(item);
            let messages = history.messages.iter().filter(|label| {
                (label.is_request() || label.is_reply())
                    && label.client == client
                    && label.item == item
            });
            holds(
                !awaited || messages.count() == 1,
                Clause::OneMessageForEachAwaited { client, item },
            )?;
        }
    }
    Ok(())
}

/// Of each item of its set a fast read has at most one first get, one get, one first reply and one
/// got, and it asks for no other; one that ended just then too.
pub(super) fn fast_reads_are_bounded(history: &History, time: usize) -> Result<(), Clause> {
    for (of, read) in fast_reads_until(history, time) {
        if let Some(item) = read.out_of_bounds() {
            return Err(Clause::Bounded { client: of.client, item });
        }
    }
    Ok(())
}

/// Until its n-th reply has come a fast read has sent n requests, and from then on it sends none
/// beyond those that joined with that reply; one that ended just then too.
///
/// What a delivery sends is in the labels as the steps say, so no delivery breaks this clause by
/// itself: a store that sends a request sooner or later answers another length of the list, and
/// breaks `Clause::Length`, or `Clause::ReadEnd` where the read then ends otherwise. But starts are
/// taken as they are answered, and one that is accepted while its client's fast read is under way
/// sends requests besides. `Clause::Bounded` sees those of other items and those of a kind that was
/// sent before, this clause also the get of an item that has had its first reply alone.
pub(super) fn fast_reads_send_in_two_rounds(history: &History, time: usize) -> Result<(), Clause> {
    for (of, read) in fast_reads_until(history, time) {
        let stated = read.sent.unwrap_or(size(read.set) as usize);
        holds(read.requests.len() == stated, Clause::TwoRounds { client: of.client })?;
    }
    Ok(())
}

/// The fast reads of the list that are running or ended just then.
fn fast_reads_until(history: &History, time: usize) -> impl Iterator<Item = (&Transaction, &Read)> {
    let all = history.transactions.iter();
    let until = all.filter(move |of| !of.held && of.ended.is_none_or(|ended| ended == time));
    let reads = until.filter_map(|of| of.read.as_ref().map(|read| (of, read)));
    reads.filter(|(_, read)| read.manner == Manner::Fast)
}
