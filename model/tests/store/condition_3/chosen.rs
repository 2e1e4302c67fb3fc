//! An ordinary read and a mixed transaction show the entries chosen at their start, from what their
//! client had seen until then.

use super::fast_reads::{breaks, made, FIRST_ENTRY};
use crate::support::{deliver, fresh, mixed, read, show, write};
use koolvent_model::call::Call;
use koolvent_model::promise::{check, Clause, Violation};
use koolvent_model::store::fault::Fault;

const NOT_CHOSEN: Clause = Clause::NotChosen { item: 0 };

/// An entry of item 0 that nobody wrote, and client 1's.
const INITIAL: [u8; 9] = [0; 9];
const WRITTEN: [u8; 9] = [0, 0, 0, 1, 1, 0, 0, 0, 5];

/// Client 1 writes 5 to item 0 and commits it. Client 2 learns of it by the got of the transaction
/// that this starts, and not before; its prepares, if any, are delivered first.
fn learning(start: Call) -> Vec<Call> {
    let prepares = usize::from(matches!(start, Call::Mixed { .. }));
    let mut calls = vec![fresh(3, 2, 2), write(1, &[(0, 5)])];
    calls.extend(vec![deliver(0); 3]);
    calls.push(start);
    calls.extend(vec![deliver(1); 2 * prepares]);
    calls.extend([deliver(0), deliver(0), show(2)]);
    calls
}

/// Nothing that the write's entry would break but the choice: it is stored, committed, later than
/// all that client 2 was shown, and the last reply named it.
#[test]
fn what_a_read_learns_of_on_its_way_is_not_what_it_shows() {
    for start in [read(2, &[0]), mixed(2, &[0], &[(1, 6)])] {
        let calls = learning(start);
        let event = calls.len() - 1;
        let mut events = made(&calls);
        check(&events).expect("every clause");
        let entry = &mut events[event].output[FIRST_ENTRY];
        assert_eq!(entry, INITIAL);
        entry.copy_from_slice(&WRITTEN);
        assert_eq!(check(&events), Err(Violation { event, clause: NOT_CHOSEN }));
        breaks(&calls, Fault::ChosenAtTheEnd, NOT_CHOSEN, event);
    }
}

/// Its prepare is delivered before its get, so that the own write is stored when it is asked for.
#[test]
fn an_own_write_asked_for_or_shown_is_found() {
    let calls = learning(mixed(2, &[0], &[(0, 6)]));
    for fault in [Fault::OwnWriteAskedFor, Fault::OwnWriteShown] {
        breaks(&calls, fault, NOT_CHOSEN, calls.len() - 1);
    }
}

/// Client 1 writes items 0 and 1, of which item 1's commit alone is delivered, and client 2 reads
/// item 1 and so learns of the write. Then it starts this transaction, of so many deliveries.
fn by_a_sibling(start: Call, deliveries: usize) -> Vec<Call> {
    let mut calls = vec![fresh(3, 2, 2), write(1, &[(0, 5), (1, 7)])];
    calls.extend(vec![deliver(0); 4]);
    calls.extend([deliver(1), read(2, &[1]), deliver(1), deliver(1), show(2), start]);
    calls.extend(vec![deliver(1); deliveries]);
    calls.push(show(2));
    calls
}

/// Client 2 was shown nothing of item 0 and has written nothing, so that the initial entry doesn't
/// go back, and misses no own write.
#[test]
fn a_stamp_that_a_sibling_s_entry_names_is_chosen() {
    for (start, deliveries) in [(read(2, &[0]), 2), (mixed(2, &[0], &[(1, 6)]), 4)] {
        let calls = by_a_sibling(start, deliveries);
        let event = calls.len() - 1;
        let mut events = made(&calls);
        check(&events).expect("every clause");
        let entry = &mut events[event].output[FIRST_ENTRY];
        assert_eq!(entry, WRITTEN);
        entry.copy_from_slice(&INITIAL);
        assert_eq!(check(&events), Err(Violation { event, clause: NOT_CHOSEN }));
        breaks(&calls, Fault::PassEndsWithTheSet, NOT_CHOSEN, event);
    }
}
