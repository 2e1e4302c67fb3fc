//! Load and versions at and past their limits: 8, 9 and 1.

use super::{accepted, refused};
use crate::support::{
    deliver, made, show_in, start_read, start_write, tables, tables_with_versions, version,
};
use koolvent_model::stamp::Stamp;
use koolvent_model::store::message::Message;
use koolvent_model::store::tables::{Client, Sizes, Tables, READING, WRITING};

fn first_items(count: u32) -> u64 {
    u64::MAX >> (64 - count)
}

/// The largest tables, where client 3 has a running transaction of 64 items and still awaits item 0
/// alone, and so many gets lie in flight.
fn with_replies_come(mode: u64, messages: usize) -> Tables {
    let mut tables = tables(8, 8, 64);
    *tables.client_mut(3) = Client {
        mode,
        count: 1,
        set: u64::MAX,
        awaited: 1,
        stamps: [Stamp::new(1, 3); 64],
        ..Client::INITIAL
    };
    let get = Message::Get { client: 3, item: 5, stamp: Stamp::INITIAL };
    tables.messages = vec![get; messages];
    tables
}

#[test]
fn load_counts_the_prepared_replies_that_have_come_to_writers_alone() {
    assert_eq!(with_replies_come(WRITING, 10).load(), 63 + 10);
    assert_eq!(with_replies_come(READING, 10).load(), 10);
    let mut idle = with_replies_come(WRITING, 10);
    idle.client_mut(3).mode = 0;
    idle.client_mut(3).awaited = 0;
    assert_eq!(idle.load(), 10);
}

#[test]
fn a_start_up_to_a_load_of_128_is_accepted_and_past_it_is_8() {
    let tables = with_replies_come(WRITING, 5);
    let fits = first_items(128 - 63 - 5);
    let over = first_items(128 - 63 - 5 + 1);
    accepted(&tables, start_read(1, fits));
    refused(&tables, 8, start_read(1, over));
    let tables = with_replies_come(WRITING, 54);
    accepted(&tables, start_write(1, first_items(11), &[0; 44]));
    refused(&tables, 8, start_write(1, first_items(12), &[0; 48]));
}

#[test]
fn a_load_of_128_is_usable_and_one_item_more_is_8() {
    let full = with_replies_come(WRITING, 65);
    assert_eq!(full.load(), 128);
    refused(&full, 8, start_read(1, 1));
    refused(&full, 8, start_write(1, 1, &[0; 4]));
    refused(&full, 13, show_in(1, &[0; 600]));
    accepted(&full, deliver(64));
}

#[test]
fn a_load_over_128_is_1() {
    let over = with_replies_come(WRITING, 66);
    refused(&over, 1, start_read(1, 1));
    refused(&over, 1, start_write(1, 1, &[0; 4]));
    refused(&over, 1, deliver(0));
    refused(&over, 1, show_in(1, &[0; 600]));
    let all_messages = with_replies_come(READING, 129);
    refused(&all_messages, 1, deliver(0));
    accepted(&with_replies_come(READING, 128), deliver(0));
}

#[test]
fn the_last_prepared_reply_of_a_full_store_is_accepted_and_its_commits_fit() {
    let mut full = with_replies_come(WRITING, 64);
    full.messages.push(Message::Prepared { item: 0, stamp: Stamp::new(1, 3) });
    assert_eq!(full.load(), 128);
    let (answer, after, _) = made(&full, deliver(64));
    assert_eq!(answer.bytes(&[]), [0, 2, 0, 64 + 8, 2]);
    assert_eq!(after.load(), 64 + 8);
}

/// So many stored versions of item 0, and so many prepares of item 1 in flight.
fn with_versions(stored: u64, prepares: u64) -> Tables {
    let mut tables = tables_with_versions(Sizes::new(2, 2, 64), stored);
    tables.messages = (1..=prepares)
        .map(|number| Message::Prepare(version(1, number, Stamp::new(number, 1), &[1])))
        .collect();
    tables
}

#[test]
fn a_write_up_to_512_versions_and_prepares_is_accepted_and_past_them_is_9() {
    for (stored, prepares) in [(501, 0), (481, 20), (451, 50)] {
        let tables = with_versions(stored, prepares);
        accepted(&tables, start_write(2, first_items(11), &[0; 44]));
        refused(&tables, 9, start_write(2, first_items(12), &[0; 48]));
        accepted(&tables, start_read(2, first_items(12)));
    }
}

#[test]
fn at_512_versions_and_prepares_the_store_is_usable_and_a_write_is_9() {
    for (stored, prepares) in [(512, 0), (492, 20)] {
        let full = with_versions(stored, prepares);
        refused(&full, 9, start_write(2, 1, &[0; 4]));
        accepted(&full, start_read(2, 1));
    }
    accepted(&with_versions(492, 20), deliver(19));
}

#[test]
fn over_512_versions_and_prepares_is_1() {
    for (stored, prepares) in [(513, 0), (493, 20)] {
        let over = with_versions(stored, prepares);
        refused(&over, 1, start_write(2, 1, &[0; 4]));
        refused(&over, 1, start_read(2, 1));
        refused(&over, 1, deliver(0));
        refused(&over, 1, show_in(2, &[0; 600]));
    }
}

#[test]
fn the_load_is_looked_at_before_the_versions() {
    let mut full = with_versions(512, 0);
    let get = Message::Get { client: 1, item: 0, stamp: Stamp::INITIAL };
    full.messages = vec![get; 128];
    refused(&full, 8, start_write(2, 1, &[0; 4]));
}
