//! Of an item fetched again a fast read shows the last reply, and all of its second gets join with
//! its last first reply.

use super::fast_reads::{breaks, made};
use crate::support::{deliver, fast_read, fresh, show, write};
use koolvent_model::call::Call;
use koolvent_model::promise::{check, Clause, Violation};
use koolvent_model::store::fault::Fault;

/// Client 1 writes items 1 and 2, and then items 0 and 1, each in a partition of its own; of the
/// commits those of item 2 and of item 1's later write stay in flight, at places 0 and 1. Of client
/// 2's fast read item 0 shows item 1 older, and item 1 shows item 2 older. Both are fetched again,
/// and then the write that item 2 was fetched for isn't shown by any other item.
fn chained(before: Vec<Call>) -> Vec<Call> {
    let mut calls = [vec![fresh(2, 3, 3)], before].concat();
    calls.push(write(1, &[(1, 8), (2, 9)]));
    calls.extend(vec![deliver(0); 5]);
    calls.push(write(1, &[(0, 5), (1, 6)]));
    calls.extend(vec![deliver(1); 5]);
    calls.push(fast_read(2, &[0, 1, 2]));
    calls.extend(vec![deliver(2); 10]);
    calls.push(show(2));
    calls
}

/// Item 2 is written before, and that write is committed.
fn written_before() -> Vec<Call> {
    [vec![write(1, &[(2, 4)])], vec![deliver(0); 3]].concat()
}

/// Place of the last first reply in the list, from its end.
const LAST_FIRST_REPLY: usize = 6;

const LAST_ENTRY: std::ops::Range<usize> = 28..37;

/// Nothing shown is fractured, older than what is committed or unwritten, if item 2's first reply
/// is shown, be it initial or not.
#[test]
fn a_first_reply_shown_for_the_last_one_is_found() {
    let not_brought = Clause::NotBrought { item: 2 };
    let initial = (vec![], [0, 0, 0, 1, 1, 0, 0, 0, 9], [0; 9]);
    let written = (written_before(), [0, 0, 0, 2, 1, 0, 0, 0, 9], [0, 0, 0, 1, 1, 0, 0, 0, 4]);
    for (before, last, first) in [initial, written] {
        let calls = chained(before);
        let mut events = made(&calls);
        let summary = check(&events).expect("every clause");
        assert_eq!((summary.fast_reads_shown, summary.fetched_again), (1, 2));
        let event = calls.len() - 1;
        let entry = &mut events[event].output[LAST_ENTRY];
        assert_eq!(entry, last);
        entry.copy_from_slice(&first);
        assert_eq!(check(&events), Err(Violation { event, clause: not_brought }));
        breaks(&calls, Fault::OlderReplyShown, not_brought, event);
    }
}

/// After the last first reply the gets of items 1 and 2 both lie there.
#[test]
fn a_store_that_sends_its_second_gets_one_after_another_is_found() {
    let calls = chained(vec![]);
    breaks(&calls, Fault::SecondGetsInTurn, Clause::Length, calls.len() - LAST_FIRST_REPLY);
}
