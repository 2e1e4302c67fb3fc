//! The checker of condition 3 finds each clause broken when it is, and only then. It goes by calls,
//! answers and outputs: what tables alone say, a client's count and views, is for tests/trials.

mod accepted;
mod answers;
mod bounds;
mod chosen;
mod clearings;
mod corrections;
mod falls;
mod fast_reads;
mod freshest;
mod hand_overs;
mod last_replies;
mod mixed;
mod showings;
mod unshown;

use crate::session::session;
use crate::support::{deliver, fresh, make_all, read, show, write};
use koolvent_model::call::{Call, Event};
use koolvent_model::promise::{check, Clause, Summary, Violation};
use koolvent_model::store::Store;

/// Client 1 writes 7 and 8 to items 0 and 1 and reads them back.
fn own_read() -> Vec<Event> {
    let mut calls = vec![fresh(2, 2, 2), write(1, &[(0, 7), (1, 8)])];
    calls.extend(vec![deliver(0); 4]);
    calls.push(show(1));
    calls.extend(vec![deliver(0); 2]);
    calls.push(read(1, &[0, 1]));
    calls.extend(vec![deliver(0); 4]);
    calls.push(show(1));
    make_all(&mut Store::new(), &calls)
}

/// Places of events in that list.
const WRITE: usize = 1;
const FIRST_PREPARE: usize = 2;
const FIRST_PREPARED: usize = 4;
const LAST_PREPARED: usize = 5;
const SHOW_WRITE: usize = 6;
const COMMIT: usize = 7;
const READ: usize = 9;
const FIRST_GOT: usize = 12;
const LAST_GOT: usize = 13;
const SHOW_READ: usize = 14;

/// The change of the list breaks this clause at this event.
fn breaks(clause: Clause, event: usize, change: impl FnOnce(&mut Vec<Event>)) {
    let mut events = own_read();
    change(&mut events);
    assert_eq!(check(&events), Err(Violation { event, clause }));
}

fn event(call: Call, answer: u64) -> Event {
    let output = call.output();
    Event { call, answer, output }
}

#[test]
fn a_write_and_its_read_keep_every_clause() {
    let expected = Summary {
        reads_ended: 1,
        writes_ended: 1,
        reads_shown: 1,
        written_entries_shown: 2,
        corrections: 0,
        shown_again: 0,
        gone: 0,
        served: 0,
        taken_over: 0,
        ..Summary::default()
    };
    assert_eq!(check(&own_read()), Ok(expected));
}

#[test]
fn the_session_keeps_every_clause() {
    let summary = check(&session()).unwrap();
    assert_eq!((summary.reads_ended, summary.writes_ended), (2, 1));
    assert_eq!(summary.written_entries_shown, 2);
}

#[test]
fn a_list_that_does_not_start_with_an_accepted_fresh_is_found() {
    breaks(Clause::Fresh, 0, |events| {
        events.remove(0);
    });
    breaks(Clause::Fresh, 0, |events| events[0].answer = 1);
}

#[test]
fn another_accepted_fresh_begins_a_new_list() {
    let mut events = own_read();
    events.extend(own_read());
    assert_eq!(check(&events).unwrap().reads_shown, 2);
    events.insert(SHOW_READ, event(fresh(2, 2, 2), 0));
    let (event, clause) = (SHOW_READ + 1, Clause::Frame);
    assert_eq!(check(&events), Err(Violation { event, clause }));
}
