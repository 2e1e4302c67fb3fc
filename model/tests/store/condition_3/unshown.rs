//! Writes that no showing gave: their numbers are known from the calls and deliveries.

use crate::support::{deliver, fresh, make_all, read, show, write};
use koolvent_model::call::Event;
use koolvent_model::promise::{check, Clause, Violation};
use koolvent_model::store::Store;
use std::ops::Range;

/// Client 1 makes these writes, one after the other and unshown, and then reads items 0 and 1.
fn read_after(writes: &[&[(u64, u32)]]) -> Vec<Event> {
    let mut calls = vec![fresh(1, 1, 2)];
    for values in writes {
        calls.push(write(1, values));
        calls.extend(vec![deliver(0); 2 * values.len() + 1]);
    }
    calls.push(read(1, &[0, 1]));
    calls.extend(vec![deliver(0); 4]);
    calls.push(show(1));
    make_all(&mut Store::new(), &calls)
}

/// Places of bytes in the frame of the read.
const FIRST_ENTRY: Range<usize> = 10..19;
const SECOND_ENTRY: Range<usize> = 19..28;

/// The read with this first entry breaks this clause.
fn breaks(clause: Clause, writes: &[&[(u64, u32)]], first_entry: [u8; 9]) {
    let mut events = read_after(writes);
    assert!(check(&events).is_ok());
    let event = events.len() - 1;
    events[event].output[FIRST_ENTRY].copy_from_slice(&first_entry);
    assert_eq!(check(&events), Err(Violation { event, clause }));
}

/// Both wrote 5 to item 0. The first isn't taken for the second, which didn't write item 1.
#[test]
fn of_two_writes_of_one_value_the_one_with_the_shown_stamp_counts() {
    let events = read_after(&[&[(0, 5), (1, 6)], &[(0, 5)]]);
    let shown = &events.last().unwrap().output;
    assert_eq!(shown[FIRST_ENTRY], [0, 0, 0, 2, 1, 0, 0, 0, 5]);
    assert_eq!(shown[SECOND_ENTRY], [0, 0, 0, 1, 1, 0, 0, 0, 6]);
    assert!(check(&events).is_ok());
}

#[test]
fn the_older_of_two_own_writes_is_found() {
    let clause = Clause::OwnWriteMissed { item: 0 };
    breaks(clause, &[&[(0, 5)], &[(0, 6)]], [0, 0, 0, 1, 1, 0, 0, 0, 5]);
}

#[test]
fn an_invented_number_with_a_written_value_is_found() {
    let clause = Clause::Unwritten { item: 0 };
    breaks(clause, &[&[(0, 5)]], [0, 0, 0, 7, 1, 0, 0, 0, 5]);
}
