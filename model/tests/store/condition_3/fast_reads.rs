//! Fast reads among the calls (document 02, P7): unfractured, with one request and one reply more
//! for each item fetched again; they may miss own writes and fall against earlier reads.

use super::own_read;
use crate::session::session;
use crate::support::{deliver, fast_read, fresh, make_all, read, show, write};
use koolvent_model::call::{Call, Event};
use koolvent_model::promise::{check, Clause, Violation};
use koolvent_model::store::fault::Fault;
use koolvent_model::store::Store;

/// Client 1 writes 7 and 8 to items 0 and 1, and of its commits item 1's stays in flight, at place
/// 0. Client 2's fast read of both finds item 1 older than item 0 shows, and fetches it again.
fn half_committed() -> Vec<Call> {
    let mut calls = vec![fresh(3, 2, 2), write(1, &[(0, 7), (1, 8)])];
    calls.extend(vec![deliver(0); 4]);
    calls.extend([show(1), deliver(0), fast_read(2, &[0, 1])]);
    calls.extend(vec![deliver(1); 6]);
    calls.push(show(2));
    calls
}

/// Places of events in that list.
const START: usize = 8;
const FIRST_FIRST_GET: usize = 9;
const FIRST_FIRST_REPLY: usize = 11;
const LAST_FIRST_REPLY: usize = 12;
const GET: usize = 13;
const GOT: usize = 14;
const SHOW: usize = 15;

/// The bits that length and outcome begin with in a delivery's answer.
const LENGTH: u64 = 1 << 16;
const OUTCOME: u64 = 1 << 32;

pub(super) fn made(calls: &[Call]) -> Vec<Event> {
    make_all(&mut Store::new(), calls)
}

/// The list on a store with this fault breaks this clause at this event.
pub(super) fn breaks(calls: &[Call], fault: Fault, clause: Clause, event: usize) {
    assert!(check(&made(calls)).is_ok());
    let events = make_all(&mut Store::new().with_fault(fault), calls);
    assert_eq!(check(&events), Err(Violation { event, clause }), "{fault:?}");
}

/// The change of the list of the half-committed write breaks this clause at this event.
fn changed_breaks(clause: Clause, event: usize, change: impl FnOnce(&mut Vec<Event>)) {
    let mut events = made(&half_committed());
    change(&mut events);
    assert_eq!(check(&events), Err(Violation { event, clause }));
}

pub(super) const FIRST_ENTRY: std::ops::Range<usize> = 10..19;
pub(super) const SECOND_ENTRY: std::ops::Range<usize> = 19..28;

#[test]
fn a_fast_read_shows_the_freshest_committed_write_whole() {
    let events = made(&half_committed());
    let summary = check(&events).expect("every clause");
    assert_eq!((summary.fast_reads_shown, summary.fetched_again), (1, 1));
    assert_eq!((summary.reads_shown, summary.written_entries_shown), (1, 2));
    let shown = &events[SHOW].output;
    assert_eq!(shown[..2], [0x23, 2]);
    assert_eq!(shown[FIRST_ENTRY], [0, 0, 0, 1, 1, 0, 0, 0, 7]);
    assert_eq!(shown[SECOND_ENTRY], [0, 0, 0, 1, 1, 0, 0, 0, 8]);
}

#[test]
fn stores_that_choose_or_show_the_second_part_wrongly_are_found() {
    let calls = half_committed();
    let fractured = Clause::Fractured { item: 0, older: 1 };
    breaks(&calls, Fault::OwnLatestAgain, fractured, SHOW);
    breaks(&calls, Fault::FirstReplyShown, fractured, SHOW);
    breaks(&calls, Fault::EndsWithTheFirstPart, Clause::ReadEnd, LAST_FIRST_REPLY);
    breaks(&calls, Fault::NewestFirst, Clause::ReadEnd, LAST_FIRST_REPLY);
    breaks(&calls, Fault::EveryItemAgain, Clause::Length, LAST_FIRST_REPLY);
    breaks(&calls, Fault::FastIsOrdinary, Clause::Kind, FIRST_FIRST_GET);
    breaks(&calls, Fault::ShownAsOrdinary, Clause::Frame, SHOW);
    breaks(&calls, Fault::FirstReplyByStamp, Clause::DeliveryWithinTheList, FIRST_FIRST_REPLY);
    breaks(&calls, Fault::EndAtFirstReply, Clause::ReadEnd, FIRST_FIRST_REPLY);
}

/// The write that item 0's first reply shows has item 1 too, which isn't read.
#[test]
fn a_store_that_fetches_an_item_outside_the_set_is_found() {
    let mut calls = half_committed();
    calls.truncate(START);
    calls.extend([fast_read(2, &[0]), deliver(1), deliver(1), show(2)]);
    breaks(&calls, Fault::OutsideTheSetAgain, Clause::ReadEnd, calls.len() - 2);
}

#[test]
fn kinds_lengths_and_ends_other_than_a_fast_read_s_are_found() {
    changed_breaks(Clause::Kind, FIRST_FIRST_GET, |events| {
        events[FIRST_FIRST_GET].answer -= 2 << 8;
    });
    changed_breaks(Clause::Kind, FIRST_FIRST_REPLY, |events| {
        events[FIRST_FIRST_REPLY].answer -= 2 << 8;
    });
    changed_breaks(Clause::Kind, GET, |events| events[GET].answer += 2 << 8);
    changed_breaks(Clause::Length, LAST_FIRST_REPLY, |events| {
        events[LAST_FIRST_REPLY].answer -= LENGTH;
    });
    for event in [FIRST_FIRST_REPLY, LAST_FIRST_REPLY, GET] {
        changed_breaks(Clause::ReadEnd, event, |events| events[event].answer += OUTCOME);
    }
    changed_breaks(Clause::ReadEnd, GOT, |events| events[GOT].answer -= OUTCOME);
    changed_breaks(Clause::Length, START, |events| events[START].answer += 1 << 8);
    for answer in [15, 17, 18, 1 << 24] {
        changed_breaks(Clause::Answer, START, |events| events[START].answer = answer);
    }
}

#[test]
fn frames_and_entries_that_no_fast_read_shows_are_found() {
    changed_breaks(Clause::Frame, SHOW, |events| events[SHOW].output[0] = 0x21);
    changed_breaks(Clause::Frame, SHOW, |events| events[SHOW].output[1] = 3);
    changed_breaks(Clause::Unwritten { item: 1 }, SHOW, |events| {
        events[SHOW].output[SECOND_ENTRY.end - 1] = 7;
    });
    changed_breaks(Clause::Fractured { item: 0, older: 1 }, SHOW, |events| {
        events[SHOW].output[SECOND_ENTRY].fill(0);
    });
    // An ordinary read isn't shown in the frame of a fast one.
    let mut events = own_read();
    events[super::SHOW_READ].output[0] = 0x23;
    let (event, clause) = (super::SHOW_READ, Clause::Frame);
    assert_eq!(check(&events), Err(Violation { event, clause }));
}

/// A second start of a client that reads leaves a first reply and a get of an item.
#[test]
fn two_messages_for_an_item_of_a_fast_read_are_found() {
    let clause = Clause::OneMessageForEachAwaited { client: 2, item: 1 };
    changed_breaks(clause, FIRST_FIRST_REPLY, |events| {
        let call = read(2, &[1]);
        let event = Event { output: call.output(), call, answer: 4 << 8 };
        events.insert(FIRST_FIRST_REPLY, event);
    });
}

/// Client 1 writes both items, and its commits stay in flight, at places 0 and 1. It has seen its
/// write itself, but a fast read asks for what is committed.
fn uncommitted() -> Vec<Call> {
    let mut calls = vec![fresh(2, 2, 2), write(1, &[(0, 7), (1, 8)])];
    calls.extend(vec![deliver(0); 4]);
    calls.push(show(1));
    calls
}

/// Two commits stay in flight before its messages.
fn reads(start: Call, deliveries: usize, client: u64) -> Vec<Call> {
    [vec![start], vec![deliver(2); deliveries], vec![show(client)]].concat()
}

#[test]
fn a_fast_read_may_miss_an_own_uncommitted_write_and_fall() {
    let [ordinary, fast] = [read(1, &[0, 1]), fast_read(1, &[0, 1])];
    let parts =
        [uncommitted(), reads(ordinary.clone(), 4, 1), reads(fast, 4, 1), reads(ordinary, 4, 1)];
    let events = made(&parts.concat());
    let summary = check(&events).expect("every clause");
    assert_eq!((summary.own_missed, summary.fallen, summary.fetched_again), (2, 2, 0));
    // The ordinary read after it shows what the one before it did.
    assert_eq!((summary.shown_again, summary.fast_shown_again), (2, 0));
    assert_eq!(events.last().unwrap().output[FIRST_ENTRY], [0, 0, 0, 1, 1, 0, 0, 0, 7]);
}

/// By the view item 0's own write would be fetched, and item 1 with it.
#[test]
fn a_store_that_chooses_from_the_view_is_found() {
    let calls = [uncommitted(), reads(fast_read(1, &[0, 1]), 4, 1)].concat();
    breaks(&calls, Fault::SiblingsOfTheView, Clause::ReadEnd, calls.len() - 2);
}

/// Client 2 writes item 0, and its commit is delivered; client 1 reads it fast.
fn seen_fast() -> Vec<Call> {
    let mut calls = vec![fresh(2, 1, 1), write(2, &[(0, 5)])];
    calls.extend(vec![deliver(0); 3]);
    calls.extend([fast_read(1, &[0]), deliver(0), deliver(0), show(1)]);
    calls
}

#[test]
fn an_ordinary_read_after_a_fast_one_does_not_fall() {
    let again = vec![read(1, &[0]), deliver(0), deliver(0), show(1)];
    let calls = [seen_fast(), again].concat();
    let mut events = made(&calls);
    let summary = check(&events).expect("every clause");
    assert_eq!((summary.fast_shown_again, summary.shown_again), (1, 1));
    breaks(&calls, Fault::FirstRepliesUnseen, Clause::WentBack { item: 0 }, calls.len() - 1);
    let event = calls.len() - 1;
    events[event].output[FIRST_ENTRY].fill(0);
    let clause = Clause::WentBack { item: 0 };
    assert_eq!(check(&events), Err(Violation { event, clause }));
}

/// Client 2 has fetched item 1 again, and then writes item 0: at item 1 alone its view names the
/// write of both.
#[test]
fn an_ordinary_read_does_not_fall_against_an_item_fetched_again() {
    let mut calls = half_committed();
    calls.extend([write(2, &[(0, 9)]), deliver(1), deliver(1)]);
    calls.extend([read(2, &[1]), deliver(2), deliver(2), show(2)]);
    let summary = check(&made(&calls)).expect("every clause");
    assert_eq!((summary.fetched_again, summary.fast_shown_again), (1, 1));
    breaks(&calls, Fault::SecondGotsUnseen, Clause::WentBack { item: 1 }, calls.len() - 1);
}

/// Its number goes by the view, which has the write of the greater client.
#[test]
fn a_write_after_a_fast_read_is_later_than_what_it_showed() {
    let corrected = vec![write(1, &[(0, 6)]), deliver(0), deliver(0), show(1)];
    let calls = [seen_fast(), corrected].concat();
    let events = made(&calls);
    assert_eq!(check(&events).expect("every clause").corrections, 1);
    assert_eq!(events.last().unwrap().output[10..14], [0, 0, 0, 2]);
    breaks(&calls, Fault::FirstRepliesUnseen, Clause::OlderThanShown, calls.len() - 1);
}

/// Client 2 has written item 0 itself, uncommitted and later than client 1's first write of both
/// items. Its fast read was answered for item 1 before that, and for item 0 after it. Client 1 then
/// writes both items anew: of the first write nothing is left but the first reply that client 2
/// keeps, by which it fetches item 1.
fn kept_alone() -> Vec<Call> {
    let mut calls = vec![fresh(2, 2, 2), write(2, &[(0, 5)])];
    calls.extend([deliver(0), deliver(0), show(2)]);
    // At place 0 the commit of client 2, at 1 the first get of item 0, at 2 item 1's first reply.
    calls.extend([fast_read(2, &[0, 1]), deliver(2)]);
    calls.push(write(1, &[(0, 7), (1, 8)]));
    calls.extend(vec![deliver(3); 6]);
    calls.extend([deliver(1), deliver(2)]);
    calls.push(write(1, &[(0, 9), (1, 10)]));
    calls.extend(vec![deliver(2); 6]);
    calls.extend([Call::Clear, deliver(1), deliver(1), deliver(1), show(2)]);
    calls
}

#[test]
fn a_clearing_spares_what_a_fast_read_keeps() {
    let calls = kept_alone();
    let events = made(&calls);
    let summary = check(&events).expect("every clause");
    assert_eq!((summary.fetched_again, summary.gone), (1, 0));
    let shown = &events.last().unwrap().output;
    assert_eq!(shown[FIRST_ENTRY], [0, 0, 0, 1, 1, 0, 0, 0, 7]);
    assert_eq!(shown[SECOND_ENTRY], [0, 0, 0, 1, 1, 0, 0, 0, 8]);
    breaks(&calls, Fault::FirstsForgotten, Clause::DeliveryWithinTheList, calls.len() - 3);
}

/// Every list with fast reads put for its reads, and with clearings after each call. Of the session
/// the second read is refused, since the first still fetches item 1.
#[test]
fn lists_with_fast_reads_for_their_reads_keep_every_clause() {
    for (events, fetched_again) in
        [(own_read(), 0), (session(), 1), (made(&half_committed()), 1), (made(&kept_alone()), 1)]
    {
        let as_fast = |call: &Call| match *call {
            Call::Read { client, set } => Call::FastRead { client, set },
            ref other => other.clone(),
        };
        let calls: Vec<Call> = events.iter().map(|event| as_fast(&event.call)).collect();
        let cleared = calls.iter().flat_map(|call| [call.clone(), Call::Clear]).collect();
        for calls in [calls, cleared] {
            let summary = check(&made(&calls)).unwrap();
            assert_eq!((summary.fast_reads_shown, summary.fetched_again), (1, fetched_again));
        }
    }
}
