//! A write is later than every entry that its client was shown before.

use crate::support::{deliver, fresh, make_all, read, show, write};
use koolvent_model::call::{Call, Event};
use koolvent_model::promise::{check, Clause, Violation};
use koolvent_model::store::fault::Fault;
use koolvent_model::store::Store;

/// The writer writes item 1. The corrector, which has written nothing, reads twice, so that it is
/// shown that write, and then writes item 0 twice; each time it is shown its write.
fn calls(writer: u64, corrector: u64) -> Vec<Call> {
    let mut calls = vec![fresh(2, 1, 2), write(writer, &[(1, 5)])];
    calls.extend(vec![deliver(0); 3]);
    for _ in 0..2 {
        calls.push(read(corrector, &[0, 1]));
        calls.extend(vec![deliver(0); 4]);
    }
    calls.push(show(corrector));
    for value in [6, 7] {
        calls.push(write(corrector, &[(0, value)]));
        calls.extend(vec![deliver(0); 3]);
        calls.push(show(corrector));
    }
    calls
}

/// Places of events in that list, and of a write's number in its frame.
const FIRST_SHOWN: usize = 20;
const SECOND_SHOWN: usize = 25;
const NUMBER: usize = 13;

fn made(calls: &[Call]) -> Vec<Event> {
    make_all(&mut Store::new(), calls)
}

fn made_wrong(fault: Fault, calls: &[Call]) -> Vec<Event> {
    make_all(&mut Store::new().with_fault(fault), calls)
}

#[test]
fn a_correction_keeps_every_clause() {
    let events = made(&calls(2, 1));
    let numbers = [FIRST_SHOWN, SECOND_SHOWN].map(|place| events[place].output[NUMBER]);
    assert_eq!(numbers, [2, 3]);
    assert_eq!(check(&events).unwrap().corrections, 1);
}

#[test]
fn a_store_whose_correction_is_older_than_what_was_read_is_found() {
    for fault in [Fault::CountAlone, Fault::WrittenViewAlone] {
        let found = check(&made_wrong(fault, &calls(2, 1)));
        let (event, clause) = (FIRST_SHOWN, Clause::OlderThanShown);
        assert_eq!(found, Err(Violation { event, clause }), "{fault:?}");
    }
}

/// With equal numbers the greater client's is later, and yet it isn't that write's number.
#[test]
fn an_equal_number_of_a_greater_client_is_found_as_another_number() {
    let events = made_wrong(Fault::CountAlone, &calls(1, 2));
    assert_eq!(events[FIRST_SHOWN].output[NUMBER], 1);
    let (event, clause) = (FIRST_SHOWN, Clause::Frame);
    assert_eq!(check(&events), Err(Violation { event, clause }));
}

#[test]
fn a_write_no_later_than_its_client_s_last_one_is_found() {
    for number in [1, 2] {
        let mut events = made(&calls(2, 1));
        events[SECOND_SHOWN].output[NUMBER] = number;
        let (event, clause) = (SECOND_SHOWN, Clause::OlderThanShown);
        assert_eq!(check(&events), Err(Violation { event, clause }));
    }
}

/// Client 1 is shown a write of client 2 before its end, and by the steps has learnt of none: its
/// own next write would be no later.
#[test]
fn a_read_of_what_was_not_learnt_is_found_before_the_next_write() {
    let calls = [
        fresh(2, 1, 2),
        write(2, &[(0, 5)]),
        deliver(0),
        read(1, &[0]),
        deliver(1),
        deliver(1),
        show(1),
        write(1, &[(1, 6)]),
    ];
    assert!(check(&made(&calls)).is_ok());
    let found = check(&made_wrong(Fault::NewestVersion, &calls));
    let (event, clause) = (6, Clause::NotChosen { item: 0 });
    assert_eq!(found, Err(Violation { event, clause }));
}

#[test]
fn a_correction_that_its_client_was_not_shown_is_found_where_another_reads_it() {
    let mut calls = calls(2, 1);
    calls.truncate(FIRST_SHOWN);
    for _ in 0..2 {
        calls.push(read(2, &[0]));
        calls.extend(vec![deliver(0); 2]);
    }
    calls.push(show(2));
    assert!(check(&made(&calls)).is_ok());
    let found = check(&made_wrong(Fault::CountAlone, &calls));
    assert_eq!(found.unwrap_err().clause, Clause::Unwritten { item: 0 });
}
