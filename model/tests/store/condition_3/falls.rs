//! Stamps that reads of one client show for one item never fall.

use crate::support::{deliver, fresh, make_all, read, show, write};
use koolvent_model::call::{Call, Event};
use koolvent_model::promise::{check, Clause, Violation};
use koolvent_model::store::fault::Fault;
use koolvent_model::store::Store;

/// The cart's story. Client 1 writes items 0, 1 and 2 (of 4), and of its commits only item 0's is
/// delivered. Client 2 reads item 0 and then `first`, with item 1, which is asked for because item
/// 0's entry names it. Client 1 writes item 0 alone, client 2 reads item 0, and that entry is
/// replaced by the later write, which doesn't touch item 1. Then client 2 reads `second`.
fn calls(first: &[u64], second: &[u64]) -> Vec<Call> {
    let mut calls = vec![fresh(2, 3, 4), write(1, &[(0, 7), (1, 8), (2, 9)])];
    calls.extend(vec![deliver(0); 7]);
    read_and_show(&mut calls, &[0]);
    read_and_show(&mut calls, first);
    calls.push(write(1, &[(0, 10)]));
    calls.extend(vec![deliver(2); 3]);
    read_and_show(&mut calls, &[0]);
    read_and_show(&mut calls, second);
    calls
}

/// Two commits stay in flight before its messages.
fn read_and_show(calls: &mut Vec<Call>, items: &[u64]) {
    calls.push(read(2, items));
    calls.extend(vec![deliver(2); 2 * items.len()]);
    calls.push(show(2));
}

fn made(calls: &[Call]) -> Vec<Event> {
    make_all(&mut Store::new(), calls)
}

/// The last showing of the story on a store with this fault breaks this clause.
fn breaks(fault: Fault, first: &[u64], second: &[u64], clause: Clause) {
    let calls = calls(first, second);
    let events = make_all(&mut Store::new().with_fault(fault), &calls);
    let event = calls.len() - 1;
    assert_eq!(check(&events), Err(Violation { event, clause }), "{fault:?}");
}

/// The first entry of a read's frame.
const FIRST_ENTRY: std::ops::Range<usize> = 10..19;

#[test]
fn an_item_once_shown_is_shown_again_though_its_sibling_s_entry_was_replaced() {
    for first in [&[1][..], &[1, 2], &[1, 3]] {
        let events = made(&calls(first, &[1]));
        assert_eq!(events.last().unwrap().output[FIRST_ENTRY], [0, 0, 0, 1, 1, 0, 0, 0, 8]);
        // Item 0, of which the first read showed the initial entry, isn't one shown again.
        assert_eq!(check(&events).unwrap().shown_again, 1);
    }
}

#[test]
fn a_store_that_offers_the_latest_alone_is_found() {
    for first in [&[1][..], &[1, 2], &[1, 3]] {
        breaks(Fault::LatestAlone, first, &[1], Clause::WentBack { item: 1 });
    }
}

/// The last got is item 3's, which nobody wrote.
#[test]
fn a_store_that_offers_the_version_with_the_last_got_alone_is_found() {
    breaks(Fault::VersionWithLastGot, &[1, 3], &[1], Clause::WentBack { item: 1 });
}

/// Item 2, never read before, is asked for because item 1's entry names it.
#[test]
fn a_store_whose_gots_carry_no_set_is_found() {
    assert!(check(&made(&calls(&[1], &[1, 2]))).is_ok());
    let clause = Clause::Fractured { item: 1, older: 2 };
    breaks(Fault::GotWithoutSet, &[1], &[1, 2], clause);
}

/// With equal numbers the greater client's is later.
#[test]
fn a_stamp_that_falls_by_its_client_alone_is_found() {
    let mut calls = vec![fresh(3, 1, 1), write(1, &[(0, 5)]), write(2, &[(0, 6)])];
    calls.extend(vec![deliver(0); 6]);
    for _ in 0..3 {
        calls.push(read(3, &[0]));
        calls.extend(vec![deliver(0); 2]);
        calls.push(show(3));
    }
    let mut events = made(&calls);
    assert_eq!(check(&events).unwrap().shown_again, 1);
    let event = calls.len() - 1;
    let entry = &mut events[event].output[FIRST_ENTRY];
    assert_eq!(entry, [0, 0, 0, 1, 2, 0, 0, 0, 6]);
    entry.copy_from_slice(&[0, 0, 0, 1, 1, 0, 0, 0, 5]);
    let clause = Clause::WentBack { item: 0 };
    assert_eq!(check(&events), Err(Violation { event, clause }));
}
