//! A fast read is no older than what is committed when its first gets are answered, and shows what a
//! reply brought.

use super::fast_reads::{breaks, made, FIRST_ENTRY, SECOND_ENTRY};
use crate::support::{deliver, fast_read, fresh, show, write};
use koolvent_model::call::{Call, Event};
use koolvent_model::promise::{check, Clause, Violation};
use koolvent_model::store::fault::Fault;

/// Client 1 has written 7 and 8 to items 0 and 1, each in a partition of its own. Its commits lie at
/// places 0 and 1.
fn written() -> Vec<Call> {
    [vec![fresh(2, 2, 2), write(1, &[(0, 7), (1, 8)])], vec![deliver(0); 4]].concat()
}

/// The client's fast read of both items, shown. So many commits stay in flight before its messages.
fn fast(client: u64, commits: u64) -> Vec<Call> {
    let start = vec![fast_read(client, &[0, 1])];
    [start, vec![deliver(commits); 4], vec![show(client)]].concat()
}

/// Both commits are delivered before the read's start.
fn committed_before(client: u64) -> Vec<Call> {
    [written(), vec![deliver(0); 2], fast(client, 0)].concat()
}

/// Both commits are delivered after client 2's start and before its first gets.
fn committed_meanwhile() -> Vec<Call> {
    let mut calls = written();
    calls.push(fast_read(2, &[0, 1]));
    calls.extend(vec![deliver(0); 6]);
    calls.push(show(2));
    calls
}

/// Both commits are delivered after client 2's first gets.
fn committed_after() -> Vec<Call> {
    let mut calls = written();
    calls.extend([fast_read(2, &[0, 1]), deliver(2), deliver(2)]);
    calls.extend(vec![deliver(0); 4]);
    calls.push(show(2));
    calls
}

/// The list whose last showing has these entries.
fn showing(calls: &[Call], entries: [[u8; 9]; 2]) -> Vec<Event> {
    let mut events = made(calls);
    let shown = &mut events.last_mut().expect("a showing").output;
    shown[FIRST_ENTRY].copy_from_slice(&entries[0]);
    shown[SECOND_ENTRY].copy_from_slice(&entries[1]);
    events
}

const INITIAL: [u8; 9] = [0; 9];
const WRITTEN: [[u8; 9]; 2] = [[0, 0, 0, 1, 1, 0, 0, 0, 7], [0, 0, 0, 1, 1, 0, 0, 0, 8]];

/// The last showing of the list breaks this clause.
fn last_breaks(events: &[Event], clause: Clause) {
    let event = events.len() - 1;
    assert_eq!(check(events), Err(Violation { event, clause }));
}

#[test]
fn a_write_committed_before_the_start_is_not_missed() {
    for client in [1, 2] {
        let calls = committed_before(client);
        let summary = check(&made(&calls)).expect("every clause");
        let own = if client == 1 { 2 } else { 0 };
        assert_eq!((summary.committed_before, summary.own_committed), (2, own));
        assert_eq!(summary.committed_meanwhile, 0);
        let missed = Clause::CommittedMissed { item: 0 };
        last_breaks(&showing(&calls, [INITIAL; 2]), missed);
        breaks(&calls, Fault::InitialFirst, missed, calls.len() - 1);
    }
}

#[test]
fn a_write_committed_before_its_first_gets_is_not_missed() {
    let calls = committed_meanwhile();
    let summary = check(&made(&calls)).expect("every clause");
    assert_eq!((summary.committed_before, summary.committed_meanwhile), (0, 2));
    let stale = Clause::Stale { item: 0 };
    last_breaks(&showing(&calls, [INITIAL; 2]), stale);
    breaks(&calls, Fault::InitialFirst, stale, calls.len() - 1);
    breaks(&calls, Fault::FirstFromTheView, stale, calls.len() - 1);
}

#[test]
fn a_write_committed_after_the_first_gets_may_be_missed() {
    let calls = committed_after();
    let events = made(&calls);
    assert_eq!(events, showing(&calls, [INITIAL; 2]));
    let summary = check(&events).expect("every clause");
    assert_eq!((summary.committed_before, summary.committed_meanwhile), (0, 0));
}

/// Of client 1's two commits the one at item 1's partition stays in flight.
#[test]
fn a_commit_counts_at_its_own_partition_alone() {
    for (item, entry) in [(0, WRITTEN[0]), (1, INITIAL)] {
        let read = vec![fast_read(2, &[item]), deliver(1), deliver(1), show(2)];
        let mut events = made(&[written(), vec![deliver(0)], read].concat());
        assert_eq!(events.last().expect("a showing").output[FIRST_ENTRY], entry);
        let summary = check(&events).expect("every clause");
        assert_eq!(summary.committed_before, 1 - item as usize);
        events.last_mut().expect("a showing").output[FIRST_ENTRY].fill(0);
        assert_eq!(check(&events).is_ok(), item == 1);
    }
}

/// Client 1 writes both items anew and commits that too.
#[test]
fn the_later_of_two_committed_writes_is_not_missed() {
    let anew = [vec![write(1, &[(0, 9), (1, 10)])], vec![deliver(0); 6]].concat();
    let calls = [written(), vec![deliver(0); 2], anew, fast(2, 0)].concat();
    assert_eq!(check(&made(&calls)).expect("every clause").committed_before, 2);
    let missed = Clause::CommittedMissed { item: 0 };
    last_breaks(&showing(&calls, WRITTEN), missed);
    breaks(&calls, Fault::OlderFirst, missed, calls.len() - 1);
}

/// Client 2 has seen nothing of what is committed.
#[test]
fn a_store_that_answers_a_first_get_from_the_view_is_found_missing_what_is_committed() {
    let calls = committed_before(2);
    let missed = Clause::CommittedMissed { item: 0 };
    breaks(&calls, Fault::FirstFromTheView, missed, calls.len() - 1);
}

/// Client 1 has seen its own write, of which nothing is committed, so that no reply brings it.
#[test]
fn a_store_that_answers_a_first_get_from_the_view_is_found_showing_what_no_reply_brought() {
    let calls = [written(), fast(1, 2)].concat();
    assert_eq!(made(&calls), showing(&calls, [INITIAL; 2]));
    let not_brought = Clause::NotBrought { item: 0 };
    last_breaks(&showing(&calls, WRITTEN), not_brought);
    breaks(&calls, Fault::FirstFromTheView, not_brought, calls.len() - 1);
}

/// The write is stored before all first gets, or before none of them.
#[test]
fn an_entry_that_no_reply_brought_is_found() {
    for calls in [[written(), fast(2, 2)].concat(), committed_after()] {
        last_breaks(&showing(&calls, WRITTEN), Clause::NotBrought { item: 0 });
    }
}
