//! Clauses about answers, messages and ends.

use super::{
    breaks, event, own_read, COMMIT, FIRST_GOT, FIRST_PREPARE, FIRST_PREPARED, LAST_GOT,
    LAST_PREPARED, READ, WRITE,
};
use crate::support::{deliver, read};
use koolvent_model::promise::{check, Clause};

/// The bit that the length of the message list begins with in a delivery's answer.
const LENGTH: u64 = 1 << 16;
/// The bit that the outcome begins with in a delivery's answer.
const OUTCOME: u64 = 1 << 32;

#[test]
fn a_number_that_no_such_call_answers_is_found() {
    for number in [15, 16, 18, 255, 1 << 24, 8 + (1 << 8), u64::MAX] {
        breaks(Clause::Answer, WRITE, |events| {
            events[WRITE].answer = number;
        });
    }
    breaks(Clause::Answer, READ, |events| events[READ].answer = 17);
    breaks(Clause::Answer, READ, |events| events[READ].answer = 18);
    breaks(Clause::Answer, FIRST_PREPARE, |events| {
        events[FIRST_PREPARE].answer |= 1 << 40;
    });
    breaks(Clause::Answer, 0, |events| events[0].answer = 1 << 8);
}

#[test]
fn a_delivery_refused_within_the_list_is_found() {
    for refusal in [1, 10, 11, 12] {
        breaks(Clause::DeliveryWithinTheList, FIRST_PREPARE, |events| {
            events[FIRST_PREPARE].answer = refusal;
        });
    }
}

#[test]
fn a_delivery_past_the_end_not_answered_10_is_found() {
    for answer in [1, 11, 12, 1 << 8] {
        breaks(Clause::DeliveryPastTheEnd, FIRST_PREPARE, |events| {
            events.insert(FIRST_PREPARE, event(deliver(2), answer));
        });
    }
    let mut events = own_read();
    events.insert(FIRST_PREPARE, event(deliver(2), 10));
    events.insert(FIRST_PREPARE, event(deliver(u64::MAX), 10));
    assert!(check(&events).is_ok());
}

#[test]
fn a_kind_other_than_that_of_the_message_is_found() {
    breaks(Clause::Kind, FIRST_PREPARE, |events| {
        events[FIRST_PREPARE].answer += 1 << 8;
    });
}

#[test]
fn a_length_other_than_that_of_the_list_is_found() {
    for place in [FIRST_PREPARE, COMMIT, LAST_GOT] {
        breaks(Clause::Length, place, |events| {
            events[place].answer += LENGTH;
        });
    }
    breaks(Clause::Length, READ, |events| {
        events[READ].answer += 1 << 8;
    });
}

#[test]
fn two_messages_for_an_awaited_item_are_found() {
    let clause = Clause::OneMessageForEachAwaited { client: 1, item: 0 };
    breaks(clause, READ + 1, |events| {
        events.insert(READ + 1, event(read(1, &[0, 1]), 4 << 8));
    });
}

#[test]
fn a_read_ended_elsewhere_than_at_its_last_reply_is_found() {
    breaks(Clause::ReadEnd, FIRST_GOT, |events| {
        events[FIRST_GOT].answer += OUTCOME;
    });
    breaks(Clause::ReadEnd, LAST_GOT, |events| {
        events[LAST_GOT].answer -= OUTCOME;
    });
    breaks(Clause::ReadEnd, LAST_GOT, |events| {
        events[LAST_GOT].answer += OUTCOME;
    });
    breaks(Clause::ReadEnd, COMMIT, |events| {
        events[COMMIT].answer += OUTCOME;
    });
}

#[test]
fn a_write_ended_elsewhere_than_at_its_last_prepared_reply_is_found() {
    breaks(Clause::WriteEnd, FIRST_PREPARED, |events| {
        events[FIRST_PREPARED].answer += 2 * OUTCOME;
    });
    breaks(Clause::WriteEnd, LAST_PREPARED, |events| {
        events[LAST_PREPARED].answer -= 2 * OUTCOME;
    });
    breaks(Clause::WriteEnd, COMMIT, |events| {
        events[COMMIT].answer += 2 * OUTCOME;
    });
    breaks(Clause::WriteEnd, COMMIT, |events| {
        events[COMMIT].answer += 3 * OUTCOME;
    });
}
