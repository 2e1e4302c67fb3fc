//! A hand-over is tested 1, 3 of either, 18, 4 of either; a comparison 1 and 3 of either.

use super::{accepted, refused};
use crate::support::{compare, hand_over, tables};
use koolvent_model::stamp::Stamp;
use koolvent_model::store::message::Message;
use koolvent_model::store::tables::{Client, Tables, READING, WRITING};

/// Numbers that no client has.
const NOBODY: [u64; 6] = [0, 4, 9, 257, 1 << 32, u64::MAX];

/// Three clients, of which 2 reads.
fn with_a_reader() -> Tables {
    let mut tables = tables(3, 2, 3);
    *tables.client_mut(2) = Client { mode: READING, set: 1, awaited: 1, ..Client::INITIAL };
    tables.messages = vec![Message::Get { client: 2, item: 0, stamp: Stamp::INITIAL }];
    tables
}

#[test]
fn damaged_tables_are_1() {
    let mut damaged = with_a_reader();
    damaged.client_mut(3).mode = 9;
    for tables in [damaged, Tables::default()] {
        for (one, other) in [(1, 3), (1, 1), (1, 2), (0, 9)] {
            refused(&tables, 1, hand_over(one, other));
            refused(&tables, 1, compare(one, other));
        }
    }
}

#[test]
fn nobody_as_either_is_3_though_both_are_equal_or_the_other_is_busy() {
    let tables = with_a_reader();
    for nobody in NOBODY {
        for (one, other) in [(1, nobody), (nobody, 1), (2, nobody), (nobody, 2), (nobody, nobody)] {
            refused(&tables, 3, hand_over(one, other));
            refused(&tables, 3, compare(one, other));
        }
    }
}

#[test]
fn a_hand_over_to_oneself_is_18_though_busy() {
    let tables = with_a_reader();
    for client in 1..=3 {
        refused(&tables, 18, hand_over(client, client));
        accepted(&tables, compare(client, client));
    }
}

#[test]
fn a_busy_giver_or_receiver_is_4() {
    let mut tables = with_a_reader();
    refused(&tables, 4, hand_over(1, 2));
    refused(&tables, 4, hand_over(2, 3));
    accepted(&tables, hand_over(1, 3));
    accepted(&tables, hand_over(3, 1));
    let mut writing = Client { mode: WRITING, set: 1, awaited: 1, ..Client::INITIAL };
    writing.stamps[0] = Stamp::new(1, 3);
    *tables.client_mut(3) = writing;
    refused(&tables, 4, hand_over(1, 3));
    refused(&tables, 4, hand_over(3, 1));
    refused(&tables, 4, hand_over(2, 3));
}

#[test]
fn busy_clients_are_compared() {
    let tables = with_a_reader();
    for (one, other) in [(1, 2), (2, 1), (2, 3), (2, 2)] {
        accepted(&tables, compare(one, other));
    }
}

/// A full store, and clients that have written nothing or as much as they can.
#[test]
fn nothing_else_is_a_ground() {
    let mut tables = tables(2, 2, 3);
    tables.client_mut(1).count = 4_294_967_295;
    tables.messages = vec![Message::Get { client: 1, item: 0, stamp: Stamp::new(1, 2) }; 128];
    accepted(&tables, hand_over(1, 2));
    accepted(&tables, hand_over(2, 1));
    accepted(&tables, compare(2, 1));
}
