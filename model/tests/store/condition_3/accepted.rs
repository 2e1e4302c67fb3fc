//! Lists from a block that a check has accepted: every clause holds of what they begin, with what
//! the block held counted as document 02's P9 says.

use super::{event, own_read, FIRST_PREPARE};
use crate::support::{
    deliver, entry, fast_read, fresh, make_all, mixed, read, set_of, show, tables, version, write,
};
use koolvent_model::call::{Call, Event};
use koolvent_model::promise::{check, check_from, Clause, Summary, Violation};
use koolvent_model::stamp::{Entry, Stamp};
use koolvent_model::store::message::Message;
use koolvent_model::store::tables::{Client, Tables, FIRST_PART, ITEMS, READING};
use koolvent_model::store::Store;

/// The tables after these calls.
fn left_by(calls: &[Call]) -> Tables {
    let mut store = Store::new();
    make_all(&mut store, calls);
    store.tables
}

/// Client 1 has written 7 and 8 to items 0 and 1, and all has arrived.
fn written() -> Tables {
    let start = vec![fresh(2, 2, 2), write(1, &[(0, 7), (1, 8)])];
    left_by(&[start, vec![deliver(0); 6]].concat())
}

/// A check, and then these calls from the tables.
fn made(held: &Tables, calls: &[Call]) -> Vec<Event> {
    let mut store = Store::with_tables(held.clone());
    let events = make_all(&mut store, &[vec![Call::Check], calls.to_vec()].concat());
    assert_eq!(events[0].answer, 0, "the block is accepted");
    events
}

fn reads(client: u64) -> Vec<Call> {
    [vec![read(client, &[0, 1])], vec![deliver(0); 4], vec![show(client)]].concat()
}

/// The list keeps every clause.
fn kept(held: &Tables, calls: &[Call]) -> Summary {
    check_from(held, &made(held, calls)).expect("every clause")
}

/// With the last showing's output changed the list breaks this clause there.
fn shown_breaks(held: &Tables, calls: &[Call], clause: Clause, change: impl FnOnce(&mut [u8])) {
    let mut events = made(held, calls);
    let event = events.len() - 1;
    change(&mut events[event].output);
    assert_eq!(check_from(held, &events), Err(Violation { event, clause }));
}

/// Item 0's entry of client 1's write.
const SEVEN: [u8; 9] = [0, 0, 0, 1, 1, 0, 0, 0, 7];

/// Where an entry of a read's frame stands.
fn at(item: usize) -> std::ops::Range<usize> {
    10 + 9 * item..19 + 9 * item
}

#[test]
fn an_entry_may_be_of_a_write_that_the_block_held() {
    let summary = kept(&written(), &reads(1));
    assert_eq!((summary.held_entries_shown, summary.checks), (2, 1));
    shown_breaks(&written(), &reads(1), Clause::Unwritten { item: 1 }, |output| {
        output[at(1).end - 1] = 9;
    });
    shown_breaks(&written(), &reads(1), Clause::Fractured { item: 0, older: 1 }, |output| {
        output[at(1)].fill(0);
    });
}

/// From a fresh start no such entry is of a write of the list.
#[test]
fn without_what_the_block_held_the_entry_is_unwritten() {
    let events = made(&written(), &reads(1));
    let fresh = event(fresh(2, 2, 2), 0);
    let from_fresh: Vec<Event> = [vec![fresh], events].concat();
    let (event, clause) = (from_fresh.len() - 1, Clause::Unwritten { item: 0 });
    assert_eq!(check(&from_fresh), Err(Violation { event, clause }));
}

/// Of client 2's write one version is stored, and nothing is under way.
#[test]
fn but_not_of_a_write_that_is_neither_whole_nor_under_way() {
    let mut held = written();
    held.versions.push(version(0, 5, Stamp::new(1, 2), &[0, 1]));
    held.client_mut(2).count = 1;
    kept(&held, &reads(1));
    shown_breaks(&held, &reads(1), Clause::Unwritten { item: 0 }, |output| {
        output[at(0)].copy_from_slice(&[0, 0, 0, 1, 2, 0, 0, 0, 5]);
    });
}

/// Client 1's write is under way when the block is checked, with the prepare of item 0 delivered.
fn under_way() -> Tables {
    left_by(&[fresh(2, 2, 2), write(1, &[(0, 7), (1, 8)]), deliver(0)])
}

#[test]
fn an_entry_may_be_of_a_write_that_was_under_way() {
    let arrives = vec![deliver(0); 5];
    let summary = kept(&under_way(), &[arrives, reads(1)].concat());
    assert_eq!((summary.held_entries_shown, summary.writes_ended), (2, 1));
}

/// Client 2's read is answered before the prepare of item 1 is delivered, or after it: then the
/// entry is one that client 2 didn't know of, and nothing else.
#[test]
fn it_is_stored_once_the_prepares_that_the_block_held_are_delivered() {
    let early = [vec![read(2, &[0])], vec![deliver(2); 2], vec![show(2)]].concat();
    let late = [vec![deliver(0)], early.clone()].concat();
    for (calls, clause) in
        [(early, Clause::AnsweredBeforeStored { item: 0 }), (late, Clause::NotChosen { item: 0 })]
    {
        shown_breaks(&under_way(), &calls, clause, |output| output[at(0)].copy_from_slice(&SEVEN));
    }
}

/// The block has lost what client 1's view knew. What client 1 had written before, and been shown,
/// counts no more; what it writes from then on does.
#[test]
fn own_writes_and_showings_from_before_do_not_count() {
    let mut held = written();
    *held.view = [[Entry::INITIAL; ITEMS]; 8];
    let initially = kept(&held, &reads(1));
    assert_eq!(initially.written_entries_shown, 0);
    let read_of_0 = [vec![read(1, &[0])], vec![deliver(0); 2], vec![show(1)]].concat();
    let anew = [vec![write(1, &[(0, 5)])], vec![deliver(0); 3], read_of_0].concat();
    kept(&held, &anew);
    shown_breaks(&held, &anew, Clause::OwnWriteMissed { item: 0 }, |output| {
        output[at(0)].copy_from_slice(&SEVEN);
    });
    let again = [reads(1), reads(1), reads(1)].concat();
    shown_breaks(&held, &again, Clause::WentBack { item: 0 }, |output| {
        output[at(0).start..at(1).end].fill(0);
    });
}

/// What reads choose goes by the views that the block held: client 2's knows of item 0 alone, and so
/// of its sibling; client 1's has lost it.
#[test]
fn reads_choose_from_the_views_that_the_block_held() {
    let mut held = written();
    *held.view = [[Entry::INITIAL; ITEMS]; 8];
    held.view_mut(2)[0] = entry(1, 1, &[0, 1]);
    for (client, shown) in [(1, 0), (2, 1)] {
        let calls = [vec![read(client, &[1])], vec![deliver(0); 2], vec![show(client)]].concat();
        assert_eq!(kept(&held, &calls).held_entries_shown, shown);
        shown_breaks(&held, &calls, Clause::NotChosen { item: 1 }, |output| match client {
            1 => output[at(0)].copy_from_slice(&[0, 0, 0, 1, 1, 0, 0, 0, 8]),
            _ => output[at(0)].fill(0),
        });
    }
}

/// Client 2 reads item 33 then, and shows the write, whose other item its message or transaction
/// named; the initial entry isn't what it chooses.
fn knows_then(held: &Tables, deliveries: usize) {
    let mut calls = vec![deliver(0); deliveries];
    calls.extend([read(2, &[33]), deliver(0), deliver(0), show(2)]);
    assert_eq!(kept(held, &calls).held_entries_shown, 1);
    shown_breaks(held, &calls, Clause::NotChosen { item: 33 }, |output| output[at(0)].fill(0));
}

/// At three partitions items 33 and 50 are written by client 1, and nobody knows of it.
fn unknown() -> Tables {
    let mut held = tables(2, 3, 64);
    held.client_mut(1).count = 1;
    let written = [33, 50].map(|item| version(item, item, Stamp::new(1, 1), &[33, 50]));
    held.versions = written.into();
    held
}

/// A read of item 50 was under way, ordinary or fast, and its message in flight.
#[test]
fn what_a_held_read_sees_enters_its_client_s_view() {
    let named = entry(1, 1, &[33, 50]);
    let [asked, initial] =
        [version(50, 50, named.stamp, &[33, 50]), version(50, 0, Stamp::INITIAL, &[])];
    for (mode, message, deliveries) in [
        (READING, Message::Get { client: 2, item: 50, stamp: named.stamp }, 2),
        (READING, Message::Got { client: 2, version: asked, latest: Entry::INITIAL }, 1),
        (READING, Message::Got { client: 2, version: initial, latest: named }, 1),
        (FIRST_PART, Message::FirstReply { client: 2, version: asked, latest: named }, 1),
        (FIRST_PART, Message::FirstReply { client: 2, version: initial, latest: named }, 1),
    ] {
        let mut held = unknown();
        let mut reading = Client { mode, set: 1 << 50, awaited: 1 << 50, ..Client::INITIAL };
        reading.stamps[50] = message.parts().stamp.unwrap_or_default();
        *held.client_mut(2) = reading;
        held.messages = vec![message];
        knows_then(&held, deliveries);
    }
    let mut held = unknown();
    held.latest[50] = named;
    *held.client_mut(2) =
        Client { mode: FIRST_PART, set: 1 << 50, awaited: 1 << 50, ..Client::INITIAL };
    held.messages = vec![Message::FirstGet { client: 2, item: 50 }];
    knows_then(&held, 2);
}

/// A write under way that ends, alone or in a mixed transaction, enters its client's view: it isn't
/// one of the list, so that it isn't missed as an own write.
#[test]
fn what_a_held_write_wrote_enters_its_client_s_view() {
    for start in [write(2, &[(33, 7), (50, 8)]), mixed(2, &[0], &[(33, 7), (50, 8)])] {
        let messages = if matches!(start, Call::Mixed { .. }) { 3 } else { 2 };
        let held = left_by(&[fresh(2, 3, 64), start]);
        let arrives = 2 * messages;
        let commits = 2;
        knows_then(&held, arrives + commits);
    }
}

/// Client 2 was handed what client 1's view held.
#[test]
fn what_a_view_held_is_handed_over() {
    let mut held = unknown();
    held.view_mut(1)[50] = entry(1, 1, &[33, 50]);
    let mut calls = vec![Call::HandOver { giver: 1, receiver: 2 }];
    calls.extend([read(2, &[33]), deliver(0), deliver(0), show(2)]);
    assert_eq!(kept(&held, &calls).held_entries_shown, 1);
    shown_breaks(&held, &calls, Clause::NotChosen { item: 33 }, |output| output[at(0)].fill(0));
}

/// A fast read goes by the latest that the block held, and by commits that it held in flight.
#[test]
fn fast_reads_are_as_fresh_as_what_the_block_held() {
    let fast = [vec![fast_read(2, &[33])], vec![deliver(0); 2], vec![show(2)]].concat();
    let mut held = unknown();
    held.latest[33] = entry(1, 1, &[33, 50]);
    kept(&held, &fast);
    shown_breaks(&held, &fast, Clause::Stale { item: 33 }, |output| output[at(0)].fill(0));
    let mut held = unknown();
    held.messages = vec![Message::Commit { partition: 33 % 3, stamp: Stamp::new(1, 1) }];
    let calls = [vec![deliver(0)], fast].concat();
    kept(&held, &calls);
    let clause = Clause::CommittedMissed { item: 33 };
    shown_breaks(&held, &calls, clause, |output| output[at(0)].fill(0));
}

/// Numbers go by what the block held: a count that no write of its client reached, and a version
/// that its client's view didn't know of.
#[test]
fn a_write_s_number_goes_by_what_the_block_held() {
    let mut held = written();
    held.client_mut(1).count = 1_000;
    let corrects = |client: u64| [vec![write(client, &[(0, 5)])], vec![deliver(0); 3]].concat();
    let shown = |calls: Vec<Call>, client: u64| {
        let calls = [calls, vec![show(client)]].concat();
        kept(&held, &calls);
        let events = made(&held, &calls);
        events[events.len() - 1].output[10..14].to_vec()
    };
    assert_eq!(shown(corrects(1), 1), [0, 0, 3, 233]);
    let handed = vec![Call::HandOver { giver: 1, receiver: 2 }];
    assert_eq!(shown([handed, corrects(2)].concat(), 2), [0, 0, 0, 2]);
    let mut reading = Client { mode: READING, set: 1, awaited: 1, ..Client::INITIAL };
    reading.stamps[0] = Stamp::new(1, 1);
    *held.client_mut(2) = reading;
    let got = version(0, 7, Stamp::new(1, 1), &[0, 1]);
    held.messages = vec![Message::Got { client: 2, version: got, latest: Entry::INITIAL }];
    let calls = [vec![deliver(0)], corrects(2), vec![show(2)]].concat();
    kept(&held, &calls);
    let events = made(&held, &calls);
    assert_eq!(events[events.len() - 1].output[10..14], [0, 0, 0, 2]);
}

/// What ended last may be shown, and what was under way ends, whatever either has read.
#[test]
fn nothing_is_promised_of_what_the_block_had_begun() {
    let mut held = written();
    let mut reading = Client { mode: READING, set: set_of(&[0, 1]), ..Client::INITIAL };
    (reading.awaited, reading.values[0]) = (set_of(&[1]), 99);
    reading.stamps[1] = Stamp::new(1, 1);
    *held.client_mut(2) = reading;
    held.messages = vec![Message::Get { client: 2, item: 1, stamp: Stamp::new(1, 1) }];
    let summary = kept(&held, &[show(1), deliver(0), deliver(0), show(2)]);
    assert_eq!((summary.reads_ended, summary.reads_shown), (1, 0));
}

/// A fast read's first part was under way, with a first reply kept that its client's view has lost:
/// with the last first reply item 1 is fetched again.
#[test]
fn messages_of_what_the_block_had_begun_go_on() {
    let mut held = tables(1, 2, 2);
    held.client_mut(1).count = 1;
    held.versions = [0, 1].map(|item| version(item, 7 + item, Stamp::new(1, 1), &[0, 1])).into();
    let record = held.client_mut(1);
    record.mode = FIRST_PART;
    (record.set, record.awaited) = (set_of(&[0, 1]), set_of(&[1]));
    (record.firsts[0], record.values[0]) = (entry(1, 1, &[0, 1]), 7);
    held.messages = vec![Message::FirstGet { client: 1, item: 1 }];
    let calls = [vec![deliver(0); 4], vec![show(1)], reads(1)].concat();
    let events = made(&held, &calls);
    let kinds: Vec<u64> = events[1..5].iter().map(|event| event.answer >> 8 & 0xff).collect();
    assert_eq!(kinds, [6, 7, 4, 5]);
    assert_eq!(check_from(&held, &events).expect("every clause").held_entries_shown, 2);
}

#[test]
fn a_check_that_is_refused_is_found() {
    let mut events = own_read();
    events.insert(FIRST_PREPARE, event(Call::Check, 0));
    assert_eq!(check(&events).expect("every clause").checks, 1);
    events[FIRST_PREPARE].answer = 19;
    let (place, clause) = (FIRST_PREPARE, Clause::Checking);
    assert_eq!(check(&events), Err(Violation { event: place, clause }));
    events[FIRST_PREPARE].answer = 1;
    assert_eq!(check(&events), Err(Violation { event: place, clause }));
    events[FIRST_PREPARE].answer = 4;
    assert_eq!(check(&events), Err(Violation { event: place, clause: Clause::Answer }));
}
