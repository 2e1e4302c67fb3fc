//! Lists with mixed transactions (document 02, P8).

use super::fast_reads::{breaks, made, FIRST_ENTRY};
use super::own_read;
use crate::session::session;
use crate::support::{deliver, fresh, mixed, read, show, write};
use koolvent_model::call::{Call, Event};
use koolvent_model::promise::{check, Clause, Violation};
use koolvent_model::store::fault::Fault;

/// Client 1 writes 5 to item 0, committed, and client 2 is shown it. Client 2 then reads items 0
/// and 1 and writes 6 to item 0 and 7 to item 2; its prepared replies come first, so that a got
/// ends it.
fn correction() -> Vec<Call> {
    let mut calls = vec![fresh(2, 2, 3), write(1, &[(0, 5)])];
    calls.extend(vec![deliver(0); 3]);
    for _ in 0..2 {
        calls.extend([read(2, &[0]), deliver(0), deliver(0), show(2)]);
    }
    calls.push(mixed(2, &[0, 1], &[(0, 6), (2, 7)]));
    calls.extend(vec![deliver(2); 4]);
    calls.extend([deliver(0), deliver(0), deliver(0), deliver(0), show(2)]);
    calls
}

/// One more message, and one more outcome, in an answer.
const LENGTH: u64 = 1 << 16;
const OUTCOME: u64 = 1 << 32;

const START: usize = 13;
const LAST_PREPARED: usize = 17;
const LAST_GOT: usize = 21;
const SHOW: usize = 22;

/// The change of the correction's list breaks this clause at this event.
fn changed_breaks(clause: Clause, event: usize, change: impl FnOnce(&mut Vec<Event>)) {
    let mut events = made(&correction());
    change(&mut events);
    assert_eq!(check(&events), Err(Violation { event, clause }));
}

#[test]
fn a_mixed_transaction_shows_what_it_read_and_what_it_wrote() {
    let events = made(&correction());
    let summary = check(&events).expect("every clause");
    assert_eq!((summary.mixed_shown, summary.ended_by_a_got), (1, 1));
    assert_eq!((summary.read_and_written, summary.reads_ended, summary.writes_ended), (1, 2, 2));
    let shown = &events[SHOW].output;
    assert_eq!(shown[..2], [0x24, 2]);
    assert_eq!(shown[FIRST_ENTRY], [0, 0, 0, 1, 1, 0, 0, 0, 5]);
    assert_eq!(shown[28..48], [0, 0, 0, 0, 0, 0, 0, 5, 0, 0, 0, 2, 0, 0, 0, 6, 0, 0, 0, 7]);
}

#[test]
fn stores_that_end_it_otherwise_are_found() {
    let calls = correction();
    breaks(&calls, Fault::EndsWithTheLastPrepared, Clause::MixedEnd, LAST_PREPARED);
    breaks(&calls, Fault::CommitsWithTheLastPrepared, Clause::Length, LAST_PREPARED);
    breaks(&calls, Fault::GotSendsNoCommits, Clause::Length, LAST_GOT);
    breaks(&calls, Fault::GotEndsARead, Clause::MixedEnd, LAST_GOT);
    breaks(&calls, Fault::PreparesBeforeGets, Clause::Kind, LAST_PREPARED - 3);
    breaks(&calls, Fault::SharedItemStruckTwice, Clause::DeliveryWithinTheList, LAST_PREPARED + 3);
}

#[test]
fn stores_that_show_it_otherwise_are_found() {
    let calls = correction();
    breaks(&calls, Fault::PartsSwapped, Clause::Frame, SHOW);
    breaks(&calls, Fault::ShownAsAWrite, Clause::Frame, SHOW);
}

#[test]
fn lengths_and_ends_other_than_a_mixed_transaction_s_are_found() {
    changed_breaks(Clause::Length, START, |events| events[START].answer += 1 << 8);
    changed_breaks(Clause::Length, LAST_GOT, |events| events[LAST_GOT].answer -= LENGTH);
    changed_breaks(Clause::MixedEnd, LAST_GOT, |events| events[LAST_GOT].answer -= OUTCOME);
    changed_breaks(Clause::MixedEnd, LAST_GOT, |events| events[LAST_GOT].answer -= 2 * OUTCOME);
    for event in LAST_PREPARED - 3..LAST_GOT {
        changed_breaks(Clause::MixedEnd, event, |events| events[event].answer += 2 * OUTCOME);
    }
    for answer in [15, 18, 1 << 24] {
        changed_breaks(Clause::Answer, START, |events| events[START].answer = answer);
    }
}

#[test]
fn frames_and_entries_that_no_mixed_transaction_shows_are_found() {
    for (place, byte) in [(0, 0x21), (1, 1), (9, 1), (35, 4), (39, 3), (43, 7)] {
        changed_breaks(Clause::Frame, SHOW, |events| events[SHOW].output[place] = byte);
    }
    changed_breaks(Clause::Unwritten { item: 0 }, SHOW, |events| {
        events[SHOW].output[FIRST_ENTRY.end - 1] = 4;
    });
    changed_breaks(Clause::WentBack { item: 0 }, SHOW, |events| {
        events[SHOW].output[FIRST_ENTRY].fill(0);
    });
    // Its own write of item 0, which it reads: a sibling of nothing that it shows, older than no
    // entry, and stored before the get behind the reply.
    let own = [0, 0, 0, 2, 2, 0, 0, 0, 6];
    changed_breaks(Clause::NotChosen { item: 0 }, SHOW, |events| {
        events[SHOW].output[FIRST_ENTRY].copy_from_slice(&own);
    });
}

/// The get of item 0 is delivered before the prepares, so that its own write can't be behind it.
#[test]
fn an_own_write_shown_that_was_not_stored_when_the_partition_answered_is_found() {
    let mut calls = vec![fresh(2, 2, 2), mixed(1, &[0], &[(0, 6)])];
    calls.extend([deliver(0), deliver(1), deliver(0), deliver(0), show(1)]);
    let event = calls.len() - 1;
    let clause = Clause::AnsweredBeforeStored { item: 0 };
    breaks(&calls, Fault::OwnWriteShown, clause, event);
    breaks(&calls, Fault::OwnWriteAskedFor, Clause::DeliveryWithinTheList, 2);
}

/// Client 1's mixed transaction writes item 0; then it reads it, and reads it again mixed.
fn own() -> Vec<Call> {
    let mut calls = vec![fresh(2, 1, 2), mixed(1, &[1], &[(0, 6)])];
    calls.extend(vec![deliver(0); 4]);
    calls.push(show(1));
    // The commit stays in flight, at place 0.
    calls.extend([read(1, &[0]), deliver(1), deliver(1), show(1)]);
    calls.push(mixed(1, &[0], &[(0, 8)]));
    calls.extend([deliver(1), deliver(2), deliver(1), deliver(1), show(1)]);
    calls
}

#[test]
fn a_mixed_transaction_is_an_own_write_for_later_reads_and_its_read_misses_none() {
    let calls = own();
    let mut events = made(&calls);
    let summary = check(&events).expect("every clause");
    assert_eq!((summary.mixed_shown, summary.mixed_entries_shown), (2, 2));
    let last = calls.len() - 1;
    for event in [10, last] {
        let mut events = events.clone();
        events[event].output[FIRST_ENTRY].fill(0);
        let clause = Clause::OwnWriteMissed { item: 0 };
        assert_eq!(check(&events), Err(Violation { event, clause }));
    }
    events[last].output.fill(0);
    assert!(check(&events).is_err());
}

/// The view takes what it wrote also where a got ends it.
#[test]
fn a_store_whose_got_leaves_the_written_items_out_of_the_view_is_found() {
    let mut calls = vec![fresh(2, 1, 2), mixed(1, &[1], &[(0, 6)])];
    calls.extend([deliver(1), deliver(1), deliver(0), deliver(0), show(1)]);
    calls.extend([read(1, &[0]), deliver(1), deliver(1), show(1)]);
    let event = calls.len() - 1;
    breaks(&calls, Fault::GotLeavesTheView, Clause::OwnWriteMissed { item: 0 }, event);
}

/// Client 2 writes item 0 twice, and client 1 is shown the second, learning of it by a first read,
/// and corrects it.
#[test]
fn a_mixed_write_is_later_than_what_was_shown() {
    let mut calls = vec![fresh(2, 1, 2)];
    for value in [5, 6] {
        calls.push(write(2, &[(0, value)]));
        calls.extend(vec![deliver(0); 3]);
    }
    for _ in 0..2 {
        calls.extend([read(1, &[0]), deliver(0), deliver(0), show(1)]);
    }
    calls.push(mixed(1, &[0], &[(0, 7)]));
    calls.extend(vec![deliver(0); 5]);
    calls.push(show(1));
    let events = made(&calls);
    assert_eq!(check(&events).expect("every clause").corrections, 1);
    let shown = &events.last().expect("the showing").output;
    assert_eq!(shown[FIRST_ENTRY], [0, 0, 0, 2, 2, 0, 0, 0, 6]);
    assert_eq!(shown[27..31], [0, 0, 0, 3]);
    breaks(&calls, Fault::CountAlone, Clause::OlderThanShown, calls.len() - 1);
}

/// Once all its prepared replies have come, nothing but itself names its stamp.
#[test]
fn a_clearing_spares_a_mixed_transaction_under_way() {
    let mut calls = vec![fresh(2, 1, 2), mixed(1, &[0], &[(0, 6), (1, 7)])];
    calls.extend(vec![deliver(1); 4]);
    calls.extend([Call::Clear, deliver(0), deliver(0), deliver(0), show(1)]);
    calls.extend([read(1, &[0, 1]), deliver(0), deliver(0), deliver(0), deliver(0), show(1)]);
    let summary = check(&made(&calls)).expect("every clause");
    assert_eq!(summary.gone, 0);
    let get = calls.len() - 5;
    breaks(&calls, Fault::MixedForgotten, Clause::DeliveryWithinTheList, get);
}

/// Every list with a mixed transaction for each read, which also writes item 0, and with clearings
/// after each call.
#[test]
fn lists_with_mixed_transactions_for_their_reads_keep_every_clause() {
    for events in [own_read(), session()] {
        let as_mixed = |call: &Call| match *call {
            Call::Read { client, set } => {
                Call::Mixed { client, read: set, write: 1, values: vec![0, 0, 0, 9] }
            }
            ref other => other.clone(),
        };
        let calls: Vec<Call> = events.iter().map(|event| as_mixed(&event.call)).collect();
        check(&made(&calls)).unwrap();
        let cleared: Vec<Call> =
            calls.iter().flat_map(|call| [call.clone(), Call::Clear]).collect();
        check(&made(&cleared)).unwrap();
    }
}
