//! Deliveries of gets and gots.

use super::{delivered, get, got, writing};
use crate::support::{entry, set_of, tables, version};
use koolvent_model::stamp::{Entry, Stamp};
use koolvent_model::store::message::Message;
use koolvent_model::store::tables::{Client, Ended, Version, READ, READING};

#[test]
fn a_get_is_answered_with_exactly_the_version_asked_for_its_set_and_the_latest() {
    let mut before = tables(2, 2, 3);
    before.versions = vec![
        version(1, 5, Stamp::new(1, 2), &[1]),
        version(0, 6, Stamp::new(2, 1), &[0]),
        version(1, 7, Stamp::new(2, 1), &[1, 2]),
        version(1, 9, Stamp::new(2, 1), &[0, 1]),
        version(1, 8, Stamp::new(3, 1), &[1]),
    ];
    before.latest[1] = entry(3, 1, &[1]);
    let mut expected = before.clone();
    let reply = version(1, 7, Stamp::new(2, 1), &[1, 2]);
    expected.messages = vec![got(2, reply, entry(3, 1, &[1]))];
    let (answer, after) = delivered(before, get(2, 1, Stamp::new(2, 1)));
    assert_eq!(answer.bytes(&[]), [0, 4, 0, 1, 0]);
    assert_eq!(after, expected);
}

#[test]
fn a_get_of_the_initial_stamp_is_answered_with_value_0_and_the_empty_set() {
    let mut before = tables(2, 2, 3);
    before.versions = vec![version(1, 5, Stamp::new(1, 2), &[1])];
    let (_, after) = delivered(before, get(1, 1, Stamp::INITIAL));
    let reply = got(1, version(1, 0, Stamp::INITIAL, &[]), Entry::INITIAL);
    assert_eq!(after.messages, [reply]);
}

/// The version (1, 1) of item 1, of a write of {1, 2}.
const VERSION: Version = Version { item: 1, value: 9, stamp: Stamp::new(1, 1), set: 0b110 };

/// Client 2 reading {0, 1}, asking for (1, 1) of item 1, still awaiting these.
fn reading(awaited: &[u64]) -> Client {
    let mut client = Client::INITIAL;
    client.mode = READING;
    client.set = set_of(&[0, 1]);
    client.awaited = set_of(awaited);
    client.stamps[1] = Stamp::new(1, 1);
    client
}

#[test]
fn a_got_that_is_not_the_last_keeps_its_value_and_sees_the_latest() {
    let mut before = tables(2, 2, 3);
    *before.client_mut(2) = reading(&[0, 1]);
    let latest = entry(4, 2, &[1]);
    let mut expected = before.clone();
    *expected.client_mut(2) = reading(&[0]);
    expected.client_mut(2).values[1] = 9;
    expected.view_mut(2)[1] = latest;
    let (answer, after) = delivered(before, got(2, VERSION, latest));
    assert_eq!(answer.bytes(&[]), [0, 5, 0, 0, 0]);
    assert_eq!(after, expected);
}

#[test]
fn the_last_got_ends_the_read_and_leaves_its_client_no_set() {
    let mut before = tables(2, 2, 3);
    *before.client_mut(2) = reading(&[1]);
    let mut expected = before.clone();
    let mut last = Ended { kind: READ, set: set_of(&[0, 1]), ..Ended::NONE };
    last.stamps[1] = Stamp::new(1, 1);
    last.values[1] = 9;
    *expected.client_mut(2) = Client { last, ..Client::INITIAL };
    expected.view_mut(2)[1] = entry(1, 1, &[1, 2]);
    let (answer, after) = delivered(before, got(2, VERSION, Entry::INITIAL));
    assert_eq!(answer.bytes(&[]), [0, 5, 0, 0, 1]);
    assert_eq!(after, expected);
}

#[test]
fn gets_and_commits_are_accepted_whatever_their_client_does() {
    for record in [Client::INITIAL, writing(&[0]), reading(&[1])] {
        let mut before = tables(2, 2, 3);
        *before.client_mut(1) = record;
        let commit = Message::Commit { partition: 0, stamp: Stamp::new(1, 1) };
        for message in [commit, get(1, 2, Stamp::INITIAL)] {
            let (answer, after) = delivered(before.clone(), message);
            assert_eq!(answer.bytes(&[])[0], 0, "{message:?}");
            assert_eq!(after.clients, before.clients);
        }
    }
}
