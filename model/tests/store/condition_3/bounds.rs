//! A fast read asks for an item of its set at most twice, in two rounds, and for no other, and the
//! later reply is the one that counts.

use super::fast_reads::{breaks, made, SECOND_ENTRY};
use crate::support::{deliver, fast_read, fresh, read, show, write};
use koolvent_model::call::{Call, Event};
use koolvent_model::promise::{check, Clause, Violation};
use koolvent_model::store::fault::Fault;

/// Client 1 writes all three items, each in a partition of its own, and of its commits those of
/// items 1 and 2 stay in flight, at places 0 and 1. Client 2's fast read of these items finds items
/// 1 and 2 older than item 0 shows: their gets lie at places 2 and 3.
fn fetching_again() -> Vec<Call> {
    let mut calls = vec![fresh(3, 3, 3), write(1, &[(0, 7), (1, 8), (2, 9)])];
    calls.extend(vec![deliver(0); 7]);
    calls.push(fast_read(2, &[0, 1, 2]));
    calls.extend(vec![deliver(2); 6]);
    calls
}

/// Client 1 writes these items anew, and the write is committed while the gets lie there.
fn overtaken(items: &[(u64, u32)]) -> Vec<Call> {
    let deliveries = vec![deliver(4); 3 * items.len()];
    [fetching_again(), vec![write(1, items)], deliveries].concat()
}

/// The list with an accepted start put at its end.
fn with_start(calls: &[Call], start: Call, messages: u64) -> Vec<Event> {
    let mut events = made(calls);
    events.push(Event { output: start.output(), call: start, answer: messages << 8 });
    events
}

#[test]
fn gots_of_reads_that_have_not_ended_are_counted() {
    let calls = fetching_again();
    assert_eq!(check(&made(&calls)).expect("every clause").fast_gots, 0);
    let calls = [calls, vec![deliver(2), deliver(3)]].concat();
    let summary = check(&made(&calls)).expect("every clause");
    assert_eq!((summary.fast_gots, summary.reads_ended, summary.fetched_again), (1, 0, 0));
}

/// Items 1 and 2 are still awaited, item 0 isn't.
#[test]
fn a_second_first_get_of_an_item_is_found() {
    let mut calls = fetching_again();
    calls.truncate(calls.len() - 2);
    let events = with_start(&calls, fast_read(2, &[0]), 5);
    let (event, clause) = (events.len() - 1, Clause::Bounded { client: 2, item: 0 });
    assert_eq!(check(&events), Err(Violation { event, clause }));
}

/// Item 1's got has come, and item 2 is still awaited.
#[test]
fn a_second_get_of_an_item_is_found() {
    let calls = [fetching_again(), vec![deliver(2), deliver(3)]].concat();
    let events = with_start(&calls, read(2, &[1]), 4);
    let (event, clause) = (events.len() - 1, Clause::Bounded { client: 2, item: 1 });
    assert_eq!(check(&events), Err(Violation { event, clause }));
}

/// The read is of one item, and the start accepted meanwhile is of the other.
#[test]
fn a_request_for_an_item_outside_the_set_is_found() {
    for (item, other) in [(0, 1), (1, 0)] {
        let calls = [fresh(2, 1, 2), fast_read(1, &[item])];
        for start in [fast_read(1, &[other]), read(1, &[other])] {
            let events = with_start(&calls, start, 2);
            let (event, clause) = (2, Clause::Bounded { client: 1, item: other });
            assert_eq!(check(&events), Err(Violation { event, clause }));
        }
    }
}

/// Item 0's first reply has come, and of the others none or all. Of item 0 no get has been sent and
/// no message lies there, so that no other clause sees the one that the start sends.
#[test]
fn a_get_outside_the_second_round_is_found() {
    let second = fetching_again();
    let first = second[..second.len() - 2].to_vec();
    for calls in [first, second] {
        let events = with_start(&calls, read(2, &[0]), 5);
        let (event, clause) = (events.len() - 1, Clause::TwoRounds { client: 2 });
        assert_eq!(check(&events), Err(Violation { event, clause }));
        let wrong = [calls, vec![read(2, &[0])]].concat();
        breaks(&wrong, Fault::FastReaderReads, clause, event);
    }
}

/// The got of item 1 brings a later latest: it isn't fetched a third time.
#[test]
fn a_store_that_fetches_an_item_a_third_time_is_found() {
    let second_part = [vec![deliver(2); 4], vec![show(2)]].concat();
    let calls = [overtaken(&[(1, 10)]), second_part.clone()].concat();
    assert_eq!(check(&made(&calls)).expect("every clause").fetched_again, 2);
    breaks(&calls, Fault::LatestFetchedToo, Clause::Length, calls.len() - 3);
    // Where it is the last got, the read isn't reported ended.
    let calls = [overtaken(&[(2, 11)]), second_part].concat();
    breaks(&calls, Fault::LatestFetchedToo, Clause::ReadEnd, calls.len() - 2);
}

/// The later write is committed and stored when the gets are delivered, but neither the first
/// replies nor the gots bring it.
#[test]
fn an_entry_later_than_the_got_of_its_item_is_found() {
    let calls = [overtaken(&[(1, 10)]), vec![deliver(2); 4], vec![show(2)]].concat();
    let mut events = made(&calls);
    assert_eq!(check(&events).expect("every clause").fast_gots, 2);
    let event = events.len() - 1;
    let entry = &mut events[event].output[SECOND_ENTRY];
    assert_eq!(entry, [0, 0, 0, 1, 1, 0, 0, 0, 8]);
    entry.copy_from_slice(&[0, 0, 0, 2, 1, 0, 0, 0, 10]);
    let clause = Clause::NotBrought { item: 1 };
    assert_eq!(check(&events), Err(Violation { event, clause }));
}

/// Item 1's first get is delivered before the write is stored there, and its second after that.
#[test]
fn an_entry_fetched_again_goes_by_its_second_get() {
    let mut calls = vec![fresh(2, 2, 2), fast_read(2, &[0, 1]), deliver(1)];
    calls.push(write(1, &[(0, 7), (1, 8)]));
    // At place 0 the first get of item 0, at 1 the first reply of item 1.
    calls.extend(vec![deliver(2); 5]);
    calls.extend([deliver(0), deliver(0), deliver(1), deliver(1), deliver(1), show(2)]);
    let events = made(&calls);
    let summary = check(&events).expect("every clause");
    assert_eq!((summary.fetched_again, summary.stored_meanwhile), (1, 1));
    assert_eq!(events.last().unwrap().output[SECOND_ENTRY], [0, 0, 0, 1, 1, 0, 0, 0, 8]);
}
