//! Fast reads: the checks of an ordinary read, which replies are awaited, and the load.

use super::{accepted, refused};
use crate::support::{
    deliver, entry, made, set_of, show_in, start_fast_read, start_read, tables, version, write,
};
use koolvent_model::stamp::{Entry, Stamp};
use koolvent_model::store::message::Message;
use koolvent_model::store::tables::{
    Client, Tables, FIRST_PART, IDLE, READING, SECOND_PART, WRITING,
};

const STAMP: Stamp = Stamp { number: 3, client: 1 };

/// Client 1 in a mode with the set {0, 1} and one stamp for both items, awaiting item 0 unless
/// idle.
fn with_client(mode: u64) -> Tables {
    let mut tables = tables(2, 2, 3);
    let awaited = if mode == IDLE { 0 } else { set_of(&[0]) };
    let mut client = Client { mode, set: set_of(&[0, 1]), awaited, ..Client::INITIAL };
    client.stamps[..2].fill(STAMP);
    *tables.client_mut(1) = client;
    tables
}

fn with_message(mode: u64, message: Message) -> Tables {
    let mut tables = with_client(mode);
    tables.messages = vec![message];
    tables
}

fn first_reply(client: u64, item: u64, stamp: Stamp) -> Message {
    let version = version(item, 5, stamp, &[item]);
    Message::FirstReply { client, version, latest: Entry::INITIAL }
}

fn got(client: u64, item: u64, stamp: Stamp) -> Message {
    let version = version(item, 5, stamp, &[item]);
    Message::Got { client, version, latest: Entry::INITIAL }
}

const MODES: [u64; 5] = [IDLE, READING, WRITING, FIRST_PART, SECOND_PART];

#[test]
fn a_start_has_the_checks_of_a_read_in_their_order() {
    let tables = with_client(FIRST_PART);
    for (refusal, client, set) in [
        (3, 0, 0),
        (3, 3, 1),
        (3, 1 << 32, 1),
        (4, 1, 0),
        (4, 1, 1),
        (5, 2, 0),
        (5, 2, 1 << 3),
        (5, 2, 1 << 63),
    ] {
        refused(&tables, refusal, start_fast_read(client, set));
        refused(&tables, refusal, start_read(client, set));
    }
    accepted(&tables, start_fast_read(2, 0b111));
    let unmade = crate::support::tables(0, 2, 3);
    refused(&unmade, 1, start_fast_read(0, 0));
}

#[test]
fn a_client_in_either_part_is_not_idle() {
    for mode in [FIRST_PART, SECOND_PART] {
        let tables = with_client(mode);
        refused(&tables, 4, start_read(1, 1));
        refused(&tables, 4, start_fast_read(1, 1));
        refused(&tables, 4, show_in(1, &[0; 600]));
    }
}

#[test]
fn a_first_reply_is_awaited_in_the_first_part_alone() {
    for mode in MODES {
        let tables = with_message(mode, first_reply(1, 0, STAMP));
        if mode == FIRST_PART {
            accepted(&tables, deliver(0));
        } else {
            refused(&tables, 11, deliver(0));
        }
    }
}

#[test]
fn a_first_reply_is_awaited_by_its_item_alone() {
    for stamp in [STAMP, Stamp::INITIAL, Stamp::new(9, 2)] {
        accepted(&with_message(FIRST_PART, first_reply(1, 0, stamp)), deliver(0));
        for (client, item) in [(1, 1), (1, 2), (2, 0)] {
            let tables = with_message(FIRST_PART, first_reply(client, item, stamp));
            refused(&tables, 11, deliver(0));
        }
    }
}

#[test]
fn a_got_is_awaited_by_an_ordinary_read_and_in_the_second_part_by_item_and_stamp() {
    for mode in MODES {
        let tables = with_message(mode, got(1, 0, STAMP));
        if [READING, SECOND_PART].contains(&mode) {
            accepted(&tables, deliver(0));
        } else {
            refused(&tables, 11, deliver(0));
        }
    }
    for message in [got(1, 1, STAMP), got(1, 2, STAMP), got(1, 0, Stamp::INITIAL), got(2, 0, STAMP)]
    {
        refused(&with_message(SECOND_PART, message), 11, deliver(0));
    }
    // Nothing is asked for by its stamp in a first part.
    let mut tables = with_message(FIRST_PART, got(1, 0, Stamp::INITIAL));
    tables.client_mut(1).stamps[0] = Stamp::INITIAL;
    refused(&tables, 11, deliver(0));
}

#[test]
fn a_prepared_reply_to_a_fast_read_is_11() {
    for mode in [FIRST_PART, SECOND_PART] {
        let tables = with_message(mode, Message::Prepared { item: 0, stamp: STAMP });
        refused(&tables, 11, deliver(0));
    }
}

#[test]
fn a_first_get_whose_item_s_latest_is_not_stored_is_12() {
    let first_get = |item| Message::FirstGet { client: 2, item };
    let mut before = tables(2, 2, 3);
    before.latest[0] = entry(3, 1, &[0, 1]);
    before.latest[1] = entry(3, 1, &[0, 1]);
    before.versions = vec![version(0, 1, STAMP, &[0, 1]), version(1, 1, Stamp::new(2, 1), &[1])];
    for (item, is_stored) in [(0, true), (1, false), (2, true)] {
        let mut tables = before.clone();
        tables.messages = vec![first_get(item)];
        match is_stored {
            true => accepted(&tables, deliver(0)),
            false => refused(&tables, 12, deliver(0)),
        }
    }
}

/// The largest tables, where client 3 has a transaction of 64 items in a mode and still awaits item
/// 0 alone, and so many gets lie in flight.
fn with_replies_come(mode: u64, messages: usize) -> Tables {
    let mut tables = tables(8, 8, 64);
    let mut client = Client { mode, set: u64::MAX, awaited: 1, ..Client::INITIAL };
    client.stamps.fill(Stamp::new(1, 3));
    *tables.client_mut(3) = client;
    let get = Message::Get { client: 3, item: 5, stamp: Stamp::INITIAL };
    tables.messages = vec![get; messages];
    tables
}

#[test]
fn first_replies_that_have_come_count_in_the_load_in_the_first_part_alone() {
    assert_eq!(with_replies_come(FIRST_PART, 10).load(), 63 + 10);
    assert_eq!(with_replies_come(SECOND_PART, 10).load(), 10);
    let first = with_replies_come(FIRST_PART, 5);
    let fits = u64::MAX >> (63 + 5 - 64);
    for start in [start_read, start_fast_read] {
        accepted(&first, start(1, fits));
        refused(&first, 8, start(1, fits << 1 | 1));
        refused(&with_replies_come(FIRST_PART, 65), 8, start(1, 1));
        refused(&with_replies_come(FIRST_PART, 66), 1, start(1, 1));
        accepted(&with_replies_come(SECOND_PART, 127), start(1, 1));
        refused(&with_replies_come(SECOND_PART, 128), 8, start(1, 1));
    }
    for (mode, messages) in [(FIRST_PART, 64), (SECOND_PART, 127)] {
        accepted(&with_replies_come(mode, messages), write(1, &[(0, 7)]));
        refused(&with_replies_come(mode, messages + 1), 8, write(1, &[(0, 7)]));
    }
}

/// At a full load the last first reply makes room for as many gets as there are items.
#[test]
fn the_gets_of_the_second_part_of_a_full_store_fit() {
    let mut full = with_replies_come(FIRST_PART, 64);
    let version = version(0, 5, STAMP, &(0..64).collect::<Vec<u64>>());
    let latest = Entry::new(STAMP, u64::MAX);
    full.messages.push(Message::FirstReply { client: 3, version, latest });
    assert_eq!(full.load(), 128);
    let (answer, after, _) = made(&full, deliver(64));
    assert_eq!(answer.bytes(&[]), [0, 7, 0, 64 + 63, 0]);
    assert_eq!((after.load(), after.client(3).mode), (64 + 63, SECOND_PART));
}

/// Kept first replies that are out of range: in a first part those of items no longer awaited, in a
/// second part all.
#[test]
fn a_kept_first_reply_out_of_range_is_1() {
    let stamps = [Stamp::new(0, 1), Stamp::new(1, 0), Stamp::new(1, 3), Stamp::new(1 << 32, 1)];
    let bad = stamps.map(|stamp| Entry::new(stamp, 1));
    let wide = Entry::new(STAMP, 1 << 3);
    for first in bad.into_iter().chain([wide]) {
        for (mode, item, is_kept) in [
            (FIRST_PART, 0, false),
            (FIRST_PART, 1, true),
            (SECOND_PART, 0, true),
            (SECOND_PART, 1, true),
        ] {
            let mut tables = with_client(mode);
            tables.client_mut(1).firsts[item] = first;
            if is_kept {
                refused(&tables, 1, start_read(2, 1));
            } else {
                accepted(&tables, start_read(2, 1));
            }
        }
        for mode in [IDLE, READING, WRITING] {
            let mut tables = with_client(mode);
            tables.client_mut(1).firsts = [first; 64];
            accepted(&tables, start_read(2, 1));
        }
    }
    // Its set may lack its item, and the initial stamp may have one.
    for first in [Entry::new(STAMP, 0), Entry::new(Stamp::INITIAL, 0b111)] {
        let mut tables = with_client(SECOND_PART);
        tables.client_mut(1).firsts[0] = first;
        accepted(&tables, start_read(2, 1));
    }
}

#[test]
fn a_fast_read_that_awaits_nothing_is_1() {
    for mode in [FIRST_PART, SECOND_PART] {
        let mut tables = with_client(mode);
        tables.client_mut(1).awaited = 0;
        refused(&tables, 1, start_read(2, 1));
    }
    let mut idle = with_client(IDLE);
    idle.client_mut(1).awaited = 1;
    refused(&idle, 1, start_read(2, 1));
}
