//! Clearings among the calls: every clause holds with them anywhere, and theirs besides.

use super::{breaks, event, own_read, FIRST_PREPARE, LAST_PREPARED, SHOW_WRITE, WRITE};
use crate::session::session;
use crate::support::{deliver, fresh, make_all, read, show, start_write, write};
use koolvent_model::call::{Call, Event};
use koolvent_model::promise::{check, Clause, Violation};
use koolvent_model::store::fault::Fault;
use koolvent_model::store::Store;

/// A write of both items, and its whole way.
fn written(values: [u32; 2]) -> Vec<Call> {
    let mut calls = vec![write(1, &[(0, values[0]), (1, values[1])])];
    calls.extend(vec![deliver(0); 6]);
    calls
}

/// Client 2 reads item 0 and so knows of client 1's write. Both items are written anew, and then
/// client 2 reads item 1, which it knows by its sibling's entry alone.
fn by_a_sibling() -> Vec<Call> {
    let known = vec![read(2, &[0]), deliver(0), deliver(0)];
    let asked = vec![Call::Clear, read(2, &[1]), deliver(0), deliver(0), show(2)];
    [vec![fresh(2, 2, 2)], written([7, 8]), known, written([9, 10]), asked].concat()
}

/// The same, but client 2's first reply is still in flight when its item is written anew: until it
/// arrives, nothing but its latest names the old write.
fn by_a_reply() -> Vec<Call> {
    let replied = vec![read(2, &[0]), deliver(0)];
    let mut anew = vec![write(1, &[(0, 9), (1, 10)])];
    anew.extend(vec![deliver(1); 6]);
    let asked = vec![Call::Clear, deliver(0), read(2, &[0]), deliver(0), deliver(0), show(2)];
    [vec![fresh(2, 2, 2)], written([7, 8]), replied, anew, asked].concat()
}

/// The story keeps every clause, and with this fault its last read's get is refused by 12.
fn get_is_refused(calls: &[Call], fault: Fault) {
    assert!(check(&make_all(&mut Store::new(), calls)).is_ok());
    let events = make_all(&mut Store::new().with_fault(fault), calls);
    let event = calls.len() - 3;
    assert_eq!(events[event].answer, 12);
    let clause = Clause::DeliveryWithinTheList;
    assert_eq!(check(&events), Err(Violation { event, clause }), "{fault:?}");
}

#[test]
fn a_store_that_spares_by_item_and_stamp_is_found() {
    get_is_refused(&by_a_sibling(), Fault::SparedByItem);
}

#[test]
fn a_store_that_looks_at_gets_alone_is_found() {
    get_is_refused(&by_a_reply(), Fault::GetsAloneSpare);
    get_is_refused(&by_a_reply(), Fault::GotsLatestForgotten);
}

/// The list with a clearing after each of its calls.
fn cleared_throughout(events: &[Event]) -> Vec<Event> {
    let calls: Vec<Call> =
        events.iter().flat_map(|event| [event.call.clone(), Call::Clear]).collect();
    make_all(&mut Store::new(), &calls)
}

/// And gives the same answers and outputs.
#[test]
fn a_list_with_clearings_throughout_keeps_every_clause() {
    let stories = [by_a_sibling(), by_a_reply()].map(|calls| make_all(&mut Store::new(), &calls));
    for events in [vec![own_read(), session()], stories.to_vec()].concat() {
        let cleared = cleared_throughout(&events);
        check(&cleared).unwrap();
        let others: Vec<Event> =
            cleared.into_iter().filter(|event| event.call != Call::Clear).collect();
        let events: Vec<Event> =
            events.into_iter().filter(|event| event.call != Call::Clear).collect();
        assert_eq!(others, events);
    }
}

#[test]
fn a_refused_clearing_is_found() {
    for place in [WRITE, FIRST_PREPARE, SHOW_WRITE] {
        breaks(Clause::Clearing, place, |events| {
            events.insert(place, event(Call::Clear, 1));
        });
        breaks(Clause::Answer, place, |events| {
            events.insert(place, event(Call::Clear, 4));
        });
    }
}

/// One version is stored with the first prepare; what a first clearing takes is gone for a second.
#[test]
fn more_versions_gone_than_stored_are_found() {
    let after = FIRST_PREPARE + 1;
    breaks(Clause::Clearing, FIRST_PREPARE, |events| {
        events.insert(FIRST_PREPARE, event(Call::Clear, 1 << 8));
    });
    breaks(Clause::Clearing, after, |events| {
        events.insert(after, event(Call::Clear, 2 << 8));
    });
    breaks(Clause::Clearing, after + 1, |events| {
        events.insert(after, event(Call::Clear, 1 << 8));
        events.insert(after, event(Call::Clear, 1 << 8));
    });
}

/// The list up to its write's end, with these calls and answers behind it.
fn ended_and(rest: &[(Call, u64)]) -> Result<(), Violation> {
    let mut events = own_read();
    events.truncate(LAST_PREPARED + 1);
    events.extend(rest.iter().map(|(call, answer)| event(call.clone(), *answer)));
    check(&events).map(|_| ())
}

/// Whoever says that two went has room for two items, until others take it.
#[test]
fn a_write_refused_by_9_though_a_clearing_freed_its_places_is_found() {
    let one = || start_write(2, 1, &[0; 4]);
    let two = || start_write(2, 3, &[0; 8]);
    let freed = |gone: u64| (Call::Clear, gone << 8);
    let found = |event: usize| {
        let clause = Clause::FreedPlaces;
        Err(Violation { event: LAST_PREPARED + event, clause })
    };
    assert_eq!(ended_and(&[(two(), 9)]), Ok(()));
    assert_eq!(ended_and(&[freed(1), (two(), 9)]), Ok(()));
    assert_eq!(ended_and(&[freed(2), (two(), 9)]), found(2));
    assert_eq!(ended_and(&[freed(2), (two(), 8)]), Ok(()));
    assert_eq!(ended_and(&[freed(2), freed(0), (two(), 9)]), found(3));
    assert_eq!(ended_and(&[freed(1), freed(1), (two(), 9)]), Ok(()));
    assert_eq!(ended_and(&[freed(2), (one(), 3 << 8), (two(), 9)]), Ok(()));
    assert_eq!(ended_and(&[freed(2), (one(), 3 << 8), (one(), 9)]), found(3));
}

/// 44 writes of 12 items, of which 9 refuses the 43rd: a clearing leaves what is in use, and the
/// others are served.
#[test]
fn writes_that_only_a_clearing_lets_in_are_counted() {
    let mut store = Store::new();
    let mut events = make_all(&mut store, &[fresh(1, 1, 12)]);
    let write = start_write(1, 0xfff, &[7; 48]);
    let way: Vec<Call> = vec![deliver(0); 25];
    for _ in 0..44 {
        let started = store.make(write.clone()).1;
        let is_full = started.answer == 9;
        events.push(started);
        if is_full {
            events.extend(make_all(&mut store, &[Call::Clear, write.clone()]));
        }
        events.extend(make_all(&mut store, &way));
    }
    let summary = check(&events).unwrap();
    assert_eq!((summary.gone, summary.served, summary.writes_ended), (41 * 12, 2, 44));
}
