//! Hand-overs among the calls: what the giver had ended or taken over counts as the receiver's own
//! for reads started after it, and every other clause holds with them anywhere.

use super::{event, own_read};
use crate::session::session;
use crate::support::{compare, deliver, fresh, hand_over, make_all, read, show, write};
use koolvent_model::call::{Call, Event};
use koolvent_model::promise::{check, Clause, Violation};
use koolvent_model::store::fault::Fault;
use koolvent_model::store::Store;

/// A write of item 0 by a client, to its end; its commit stays in flight, so that only its client
/// knows of it.
fn written(client: u64, value: u32, in_flight: u64) -> Vec<Call> {
    vec![write(client, &[(0, value)]), deliver(in_flight), deliver(in_flight), show(client)]
}

/// A read of item 0 by a client, shown.
fn reads(client: u64, in_flight: u64) -> Vec<Call> {
    vec![read(client, &[0]), deliver(in_flight), deliver(in_flight), show(client)]
}

/// The calls on a store of three clients and one item.
fn made(calls: &[Vec<Call>]) -> Vec<Event> {
    make_all(&mut Store::new(), &[vec![fresh(3, 1, 1)], calls.concat()].concat())
}

/// The frame of a read's last showing with the initial entry put for what it shows.
fn initially(mut events: Vec<Event>) -> Vec<Event> {
    let shown = events.last_mut().expect("a showing");
    shown.output[10..19].fill(0);
    events
}

/// The list keeps every clause, with so many entries shown of writes taken over; with the initial
/// entry shown last it misses an own write.
fn is_own(calls: &[Vec<Call>], taken_over: usize) {
    let events = made(calls);
    assert_eq!(check(&events).expect("every clause").taken_over, taken_over);
    let (event, clause) = (events.len() - 1, Clause::OwnWriteMissed { item: 0 });
    assert_eq!(check(&initially(events)), Err(Violation { event, clause }));
}

/// The initial entry is shown last, and the list keeps every clause.
fn is_not_own(calls: &[Vec<Call>]) {
    let events = made(calls);
    assert_eq!(events.last().expect("a showing").output[10..19], [0; 9]);
    assert_eq!(check(&events).expect("every clause").taken_over, 0);
}

fn handed(pairs: &[(u64, u64)]) -> Vec<Call> {
    pairs.iter().map(|(giver, receiver)| hand_over(*giver, *receiver)).collect()
}

#[test]
fn what_the_giver_had_ended_counts_as_the_receiver_s_own() {
    is_own(&[written(1, 7, 0), handed(&[(1, 2)]), reads(2, 1)], 1);
    is_own(&[written(1, 7, 0), handed(&[(1, 2)]), reads(1, 1)], 0);
    is_not_own(&[written(1, 7, 0), reads(2, 1)]);
    is_not_own(&[written(1, 7, 0), handed(&[(1, 2)]), reads(3, 1)]);
    is_not_own(&[written(1, 7, 0), handed(&[(2, 1)]), reads(2, 1)]);
}

#[test]
fn what_the_giver_ends_after_the_hand_over_does_not_count() {
    is_not_own(&[handed(&[(1, 2)]), written(1, 7, 0), reads(2, 1)]);
    // A hand-over while the giver writes is refused, and hands over nothing.
    let while_writing = vec![write(1, &[(0, 7)]), hand_over(1, 2), deliver(0), deliver(0), show(1)];
    is_not_own(&[while_writing, reads(2, 1)]);
}

#[test]
fn chains_count_in_their_order_alone() {
    is_own(&[written(1, 7, 0), handed(&[(1, 2), (2, 3)]), reads(3, 1)], 1);
    is_not_own(&[written(1, 7, 0), handed(&[(2, 3), (1, 2)]), reads(3, 1)]);
    is_own(&[written(1, 7, 0), handed(&[(2, 3), (1, 2)]), reads(2, 1)], 1);
    is_own(&[written(1, 7, 0), handed(&[(2, 3), (1, 2), (2, 3)]), reads(3, 1)], 1);
    is_not_own(&[handed(&[(1, 2)]), written(1, 7, 0), handed(&[(2, 3)]), reads(3, 1)]);
    is_own(&[handed(&[(1, 2)]), written(2, 7, 0), handed(&[(2, 3)]), reads(3, 1)], 1);
    is_own(&[written(1, 7, 0), handed(&[(1, 2), (2, 1)]), reads(1, 1)], 0);
    is_own(&[handed(&[(1, 2), (2, 1)]), written(1, 7, 0), reads(1, 1)], 0);
    // The last of several hand-overs counts too.
    is_own(&[handed(&[(1, 2)]), written(1, 7, 0), handed(&[(1, 2)]), reads(2, 1)], 1);
}

/// A hand-over is refused while the read is under way, and comes too late once it has ended.
#[test]
fn reads_started_before_the_hand_over_know_nothing_of_it() {
    for after in [0, 2] {
        let mut calls = vec![read(2, &[0]), deliver(1), deliver(1), show(2)];
        calls.insert(1 + after, hand_over(1, 2));
        is_not_own(&[written(1, 7, 0), calls]);
    }
}

/// The read shows the write that its client was handed; the giver's next one is not its own.
#[test]
fn each_write_counts_by_itself() {
    let calls = [written(1, 7, 0), handed(&[(1, 2)]), written(1, 8, 1), reads(2, 2)];
    let events = made(&calls);
    assert_eq!(events.last().unwrap().output[10..19], [0, 0, 0, 1, 1, 0, 0, 0, 7]);
    is_own(&calls, 1);
}

/// What the giver had written is missed, or what the receiver itself had.
#[test]
fn stores_that_hand_over_nothing_or_too_much_are_found() {
    for (fault, writer) in [(Fault::NothingHandedOver, 1), (Fault::ReceiverReplaced, 2)] {
        let parts = [written(writer, 7, 0), handed(&[(1, 2)]), reads(2, 1)];
        let calls = [vec![fresh(3, 1, 1)], parts.concat()].concat();
        let events = make_all(&mut Store::new().with_fault(fault), &calls);
        let (event, clause) = (calls.len() - 1, Clause::OwnWriteMissed { item: 0 });
        assert_eq!(check(&events), Err(Violation { event, clause }), "{fault:?}");
    }
}

/// Of client 1's write client 3 learns with item 0 alone, and hands that on: the set tells client 2
/// to ask for item 1 of it too.
#[test]
fn a_store_that_hands_over_stamps_without_their_sets_is_found() {
    let mut calls = vec![fresh(3, 2, 2), write(1, &[(0, 7), (1, 8)])];
    calls.extend(vec![deliver(0); 4]);
    calls.extend([show(1), deliver(0), read(3, &[0]), deliver(1), deliver(1), show(3)]);
    calls.extend([hand_over(3, 2), read(2, &[0, 1])]);
    calls.extend(vec![deliver(1); 4]);
    calls.push(show(2));
    assert!(check(&make_all(&mut Store::new(), &calls)).is_ok());
    let events = make_all(&mut Store::new().with_fault(Fault::HandedStampsAlone), &calls);
    let (event, clause) = (calls.len() - 1, Clause::Fractured { item: 0, older: 1 });
    assert_eq!(check(&events), Err(Violation { event, clause }));
}

/// The list with hand-overs both ways and comparisons after each of its calls.
#[test]
fn a_list_with_hand_overs_throughout_keeps_every_clause() {
    for events in [own_read(), session()] {
        let compare = compare(1, 2);
        let calls: Vec<Call> = events
            .iter()
            .flat_map(|event| {
                [event.call.clone(), hand_over(1, 2), compare.clone(), hand_over(2, 1)]
            })
            .collect();
        let accepted = make_all(&mut Store::new(), &calls)
            .iter()
            .filter(|event| matches!(event.call, Call::HandOver { .. }) && event.answer == 0)
            .count();
        assert!(accepted >= 4, "{accepted}");
        check(&make_all(&mut Store::new(), &calls)).unwrap();
    }
}

#[test]
fn numbers_that_no_hand_over_or_comparison_answers_are_found() {
    let found = |call: Call, answer: u64| {
        let mut events = own_read();
        events.truncate(1);
        events.push(event(call, answer));
        check(&events).map(|_| ())
    };
    let none = Err(Violation { event: 1, clause: Clause::Answer });
    let compare = compare(1, 2);
    for answer in [0, 1, 3, 4, 18] {
        assert_eq!(found(hand_over(1, 2), answer), Ok(()));
    }
    for answer in [2, 5, 17, 19, 1 << 8] {
        assert_eq!(found(hand_over(1, 2), answer), none);
    }
    for answer in [0, 1 << 8, 2 << 8, 3 << 8, 1, 3] {
        assert_eq!(found(compare.clone(), answer), Ok(()));
    }
    for answer in [4 << 8, 1 << 16, 4, 18, 3 + (1 << 8)] {
        assert_eq!(found(compare.clone(), answer), none);
    }
}
