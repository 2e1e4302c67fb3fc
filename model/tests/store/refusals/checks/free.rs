//! What the ticket leaves free.

use super::{accepted, entry, passes, refused, written, ENDED, GET_AGAIN, GOT};
use crate::support::{set_of, tables, version};
use koolvent_model::call::Call;
use koolvent_model::stamp::{Entry, Stamp};
use koolvent_model::store::message::Message;
use koolvent_model::store::tables::{Client, Ended, FAST_READ, ITEMS, MIXED, READ};

const NOWHERE: Stamp = Stamp::new(3, 2);

/// Answers kept from gots: their stamps and values, whatever they are.
#[test]
fn answers_of_a_read_under_way() {
    passes(|tables| {
        let record = tables.client_mut(2);
        record.awaited = set_of(&[0]);
        (record.stamps[1], record.values[1]) = (NOWHERE, 99);
        tables.messages.remove(GOT);
    });
}

#[test]
fn answers_of_a_read_that_has_ended() {
    for kind in [READ, FAST_READ, MIXED] {
        let mut last = Ended { kind, set: set_of(&[0, 3]), ..Ended::NONE };
        for item in [0, 3] {
            (last.stamps[item], last.values[item]) = (Stamp::new(9, 5), 99);
        }
        if kind == MIXED {
            (last.write_set, last.stamp) = (set_of(&[0]), NOWHERE);
            last.write_values[0] = 99;
        }
        passes(|tables| tables.client_mut(2).last = last);
    }
}

/// A write that isn't whole and that nothing names: as a clearing leaves none, and a client that
/// was given up may.
#[test]
fn versions_that_nothing_names() {
    passes(|tables| tables.versions.push(version(3, 9, Stamp::new(2, 2), &[0, 3])));
    passes(|tables| {
        *tables.client_mut(1) = Client::resting(2, tables.client(1).last);
        tables.messages.drain(..2);
    });
}

/// An idle client's set, the stamps of its items and their values.
#[test]
fn an_idle_client_s_words() {
    passes(|tables| {
        let mut idle = Client { set: set_of(&[0, 3]), ..Client::resting(0, Ended::NONE) };
        for item in [0, 3] {
            (idle.stamps[item], idle.values[item]) = (Stamp::new(9, 5), 99);
        }
        *tables.client_mut(5) = idle;
        tables.messages.remove(GET_AGAIN);
    });
}

/// A count may be above all numbers of its client, but of a write under way.
#[test]
fn counts_above_all_numbers() {
    passes(|tables| {
        for client in [2, 3, 5] {
            tables.client_mut(client).count = 4_294_967_295;
        }
    });
}

/// Views may know less than the reads under way ask for, and latest less than is committed.
#[test]
fn views_and_latest_that_know_less() {
    passes(|tables| {
        *tables.view = [[Entry::INITIAL; ITEMS]; 8];
        tables.latest = [Entry::INITIAL; ITEMS];
    });
    passes(|tables| {
        let got = Message::Got { client: 2, version: written(1), latest: Entry::INITIAL };
        tables.messages[GOT] = got;
    });
    passes(|tables| tables.view_mut(5)[1] = entry(1, 1, &[0, 1]));
}

/// A write wider than a write may be.
#[test]
fn wide_sets() {
    let mut tables = tables(1, 1, 64);
    tables.client_mut(1).count = 1;
    let all: Vec<u64> = (0..64).collect();
    tables.versions = all.iter().map(|item| version(*item, 1, ENDED, &all)).collect();
    tables.view_mut(1).fill(entry(1, 1, &all));
    accepted(&tables, Call::Check);
    tables.versions.pop();
    refused(&tables, 19, Call::Check);
}
