//! Clauses about what showings give.

use super::{breaks, event, SHOW_READ, SHOW_WRITE};
use crate::support::{deliver, fresh, make_all, read, show, write};
use koolvent_model::promise::{check, Clause};
use koolvent_model::store::Store;

/// Places of bytes in the frame of the read.
const SET: usize = 9;
const FIRST_NUMBER: usize = 13;
const FIRST_VALUE: usize = 18;
const SECOND_ENTRY: std::ops::Range<usize> = 19..28;

#[test]
fn output_changed_past_the_frame_or_at_a_refusal_is_found() {
    breaks(Clause::Output, SHOW_READ, |events| {
        events[SHOW_READ].output[28] = 0;
    });
    breaks(Clause::Output, SHOW_READ, |events| {
        events[SHOW_READ].output.push(0);
    });
    breaks(Clause::Output, SHOW_READ + 1, |events| {
        let mut refused = event(show(2), 13);
        refused.output[0] = 0;
        events.push(refused);
    });
}

#[test]
fn a_showing_refused_after_an_end_is_found() {
    for refusal in [4, 13, 14] {
        breaks(Clause::ShowingAfterAnEnd, SHOW_WRITE, |events| {
            events[SHOW_WRITE] = event(show(1), refusal);
        });
    }
}

#[test]
fn a_frame_of_another_transaction_is_found() {
    breaks(Clause::Frame, SHOW_WRITE, |events| {
        events[SHOW_WRITE].output[13] = 0;
    });
    breaks(Clause::Frame, SHOW_WRITE, |events| {
        events[SHOW_WRITE].output[17] = 9;
    });
    breaks(Clause::Frame, SHOW_READ, |events| {
        events[SHOW_READ].output[1] = 2;
    });
    breaks(Clause::Frame, SHOW_READ, |events| {
        events[SHOW_READ].output[SET] = 5;
    });
    breaks(Clause::Frame, SHOW_READ, |events| {
        events[SHOW_READ].answer += 1 << 8;
    });
}

#[test]
fn a_write_shown_with_another_number_is_found() {
    breaks(Clause::Frame, SHOW_WRITE, |events| {
        events[SHOW_WRITE].output[13] = 2;
    });
    breaks(Clause::Frame, SHOW_WRITE + 1, |events| {
        let mut again = events[SHOW_WRITE].clone();
        again.output[13] = 2;
        events.insert(SHOW_WRITE + 1, again);
    });
}

#[test]
fn an_entry_that_no_write_put_there_is_found() {
    breaks(Clause::Unwritten { item: 0 }, SHOW_READ, |events| {
        events[SHOW_READ].output[FIRST_VALUE] = 8;
    });
    breaks(Clause::Unwritten { item: 0 }, SHOW_READ, |events| {
        events[SHOW_READ].output[FIRST_NUMBER] = 2;
    });
    breaks(Clause::Unwritten { item: 1 }, SHOW_READ, |events| {
        events[SHOW_READ].output[SECOND_ENTRY].copy_from_slice(&[0, 0, 0, 0, 0, 0, 0, 0, 8]);
    });
}

#[test]
fn a_fractured_read_is_found() {
    let clause = Clause::Fractured { item: 0, older: 1 };
    breaks(clause, SHOW_READ, |events| {
        events[SHOW_READ].output[SECOND_ENTRY].fill(0);
    });
}

#[test]
fn an_own_write_missed_is_found() {
    breaks(Clause::OwnWriteMissed { item: 0 }, SHOW_READ, |events| {
        events[SHOW_READ].output[10..28].fill(0);
    });
}

/// Client 1 writes 7 and 8 to items 0 and 1; client 2's read of item 0 is answered when this many
/// prepares are delivered, and then shows an entry of that write, of which it hasn't learnt.
fn broken_by_an_entry_shown_after(prepares: usize) -> Clause {
    let mut calls = vec![fresh(2, 2, 2), write(1, &[(0, 7), (1, 8)])];
    calls.extend(vec![deliver(0); prepares]);
    calls.extend([read(2, &[0]), deliver(2)]);
    calls.extend(vec![deliver(0); 2 - prepares]);
    let got_is_at = prepares as u64;
    calls.extend([deliver(got_is_at), show(2)]);
    let mut events = make_all(&mut Store::new(), &calls);
    let shown = events.last_mut().unwrap();
    shown.output[10..19].copy_from_slice(&[0, 0, 0, 1, 1, 0, 0, 0, 7]);
    check(&events).unwrap_err().clause
}

#[test]
fn an_entry_answered_before_its_write_was_stored_everywhere_is_found() {
    for prepares in [0, 1] {
        let clause = broken_by_an_entry_shown_after(prepares);
        assert_eq!(clause, Clause::AnsweredBeforeStored { item: 0 });
    }
    assert_eq!(broken_by_an_entry_shown_after(2), Clause::NotChosen { item: 0 });
}
