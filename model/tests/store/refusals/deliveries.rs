//! Deliveries: 10, 11 in each of its cases, and 12. The message stays where it is.

use super::{accepted, refused};
use crate::support::{deliver, set_of, tables, version};
use koolvent_model::stamp::{Entry, Stamp};
use koolvent_model::store::message::Message;
use koolvent_model::store::tables::{Client, Tables, IDLE, READING, WRITING};

const STAMP: Stamp = Stamp { number: 3, client: 1 };

/// Client 1 in a mode with the set {0, 1} and one stamp for both items, awaiting item 0 unless
/// idle.
fn with_client(mode: u64) -> Tables {
    let mut tables = tables(2, 2, 3);
    let mut client = Client {
        mode,
        set: set_of(&[0, 1]),
        awaited: if mode == IDLE { 0 } else { set_of(&[0]) },
        ..Client::INITIAL
    };
    client.stamps[0] = STAMP;
    client.stamps[1] = STAMP;
    *tables.client_mut(1) = client;
    tables
}

fn with_message(mut tables: Tables, message: Message) -> Tables {
    let other = Message::Commit { partition: 0, stamp: Stamp::new(1, 2) };
    tables.messages = vec![other, message, other];
    tables
}

fn prepared(item: u64, stamp: Stamp) -> Message {
    Message::Prepared { item, stamp }
}

fn got(client: u64, item: u64, stamp: Stamp) -> Message {
    Message::Got { client, version: version(item, 5, stamp, &[item]), latest: Entry::INITIAL }
}

#[test]
fn a_place_at_or_past_the_end_is_10() {
    let tables = with_message(tables(2, 2, 3), prepared(0, STAMP));
    for place in [3, 4, 128, 1 << 16, 1 << 32, 1 << 63, u64::MAX] {
        refused(&tables, 10, deliver(place));
    }
    accepted(&tables, deliver(2));
    let empty = crate::support::tables(1, 1, 1);
    refused(&empty, 10, deliver(0));
}

#[test]
fn a_prepare_of_an_item_and_stamp_already_stored_is_11() {
    let mut tables = tables(2, 2, 3);
    tables.versions = vec![version(0, 1, STAMP, &[0])];
    let prepare = |item, stamp| Message::Prepare(version(item, 2, stamp, &[0, 1]));
    let stored = with_message(tables.clone(), prepare(0, STAMP));
    refused(&stored, 11, deliver(1));
    for fresh in [prepare(1, STAMP), prepare(0, Stamp::new(3, 2)), prepare(0, Stamp::new(4, 1))] {
        let fresh = with_message(tables.clone(), fresh);
        accepted(&fresh, deliver(1));
    }
}

#[test]
fn a_prepared_reply_whose_client_is_not_writing_is_11() {
    for mode in [IDLE, READING] {
        let tables = with_message(with_client(mode), prepared(0, STAMP));
        refused(&tables, 11, deliver(1));
    }
    let tables = with_message(with_client(WRITING), prepared(0, STAMP));
    accepted(&tables, deliver(1));
}

#[test]
fn a_prepared_reply_that_is_not_awaited_with_its_item_and_stamp_is_11() {
    for message in [
        prepared(1, STAMP),
        prepared(2, STAMP),
        prepared(0, Stamp::new(2, 1)),
        prepared(0, Stamp::new(3, 2)),
    ] {
        let tables = with_message(with_client(WRITING), message);
        refused(&tables, 11, deliver(1));
    }
}

#[test]
fn a_prepared_reply_goes_to_the_client_in_its_stamp_and_is_11_if_another_writes_it() {
    let mut tables = with_client(WRITING);
    tables.clients.swap(0, 1);
    let tables = with_message(tables, prepared(0, STAMP));
    refused(&tables, 11, deliver(1));
}

#[test]
fn a_got_whose_client_is_not_reading_is_11() {
    for mode in [IDLE, WRITING] {
        let tables = with_message(with_client(mode), got(1, 0, STAMP));
        refused(&tables, 11, deliver(1));
    }
    let tables = with_message(with_client(READING), got(1, 0, STAMP));
    accepted(&tables, deliver(1));
}

#[test]
fn a_got_that_is_not_awaited_with_its_item_and_stamp_is_11() {
    for message in [
        got(1, 1, STAMP),
        got(1, 2, STAMP),
        got(1, 0, Stamp::INITIAL),
        got(1, 0, Stamp::new(3, 2)),
        got(2, 0, STAMP),
    ] {
        let tables = with_message(with_client(READING), message);
        refused(&tables, 11, deliver(1));
    }
}

#[test]
fn a_get_of_a_version_that_is_not_stored_is_12() {
    let get = |item, stamp| Message::Get { client: 2, item, stamp };
    let mut tables = tables(2, 2, 3);
    tables.versions = vec![version(0, 1, STAMP, &[0, 1])];
    for message in [get(1, STAMP), get(0, Stamp::new(3, 2)), get(0, Stamp::new(2, 1))] {
        let tables = with_message(tables.clone(), message);
        refused(&tables, 12, deliver(1));
    }
    for message in [get(0, STAMP), get(1, Stamp::INITIAL)] {
        let tables = with_message(tables.clone(), message);
        accepted(&tables, deliver(1));
    }
}

#[test]
fn a_refused_delivery_does_not_stop_the_others() {
    let tables = with_message(with_client(IDLE), got(1, 0, STAMP));
    refused(&tables, 11, deliver(1));
    accepted(&tables, deliver(0));
    accepted(&tables, deliver(2));
}
