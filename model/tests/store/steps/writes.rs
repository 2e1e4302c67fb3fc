//! Deliveries of prepares, prepared replies and commits.

use super::{delivered, get, writing};
use crate::support::{deliver, entry, made, set_of, tables, version};
use koolvent_model::answer::{Answer, WRITE_ENDED};
use koolvent_model::stamp::{Entry, Stamp};
use koolvent_model::store::message::Message;
use koolvent_model::store::tables::{Client, Ended, Tables, WRITE};

#[test]
fn a_prepare_is_stored_last_and_its_reply_joins_at_the_end() {
    let stamp = Stamp::new(1, 1);
    let stored = version(1, 5, Stamp::new(4, 2), &[1]);
    let prepared = version(0, 7, stamp, &[0, 2]);
    let mut before = tables(2, 2, 3);
    before.versions = vec![stored];
    before.messages =
        vec![get(2, 0, Stamp::INITIAL), Message::Prepare(prepared), get(2, 1, Stamp::INITIAL)];
    let mut expected = before.clone();
    expected.versions = vec![stored, prepared];
    expected.messages = vec![
        get(2, 0, Stamp::INITIAL),
        get(2, 1, Stamp::INITIAL),
        Message::Prepared { item: 0, stamp },
    ];
    let (answer, after, _) = made(&before, deliver(1));
    assert_eq!(answer.bytes(&[]), [0, 1, 0, 3, 0]);
    assert_eq!(after, expected);
}

#[test]
fn a_prepared_reply_that_is_not_the_last_strikes_its_item_alone() {
    let mut before = tables(2, 2, 3);
    *before.client_mut(1) = writing(&[0, 2]);
    let mut expected = before.clone();
    *expected.client_mut(1) = writing(&[0]);
    let prepared = Message::Prepared { item: 2, stamp: Stamp::new(1, 1) };
    let (answer, after) = delivered(before, prepared);
    assert_eq!(answer.bytes(&[]), [0, 2, 0, 0, 0]);
    assert_eq!(after, expected);
}

/// The tables before and after the last prepared reply of client 1's write of {0, 2}.
fn last_prepared(partitions: u64, view: &[(usize, Entry)]) -> (Answer, Tables, Tables) {
    let mut before = tables(3, partitions, 3);
    *before.client_mut(1) = writing(&[0]);
    for (item, entry) in view {
        before.view_mut(1)[*item] = *entry;
    }
    let prepared = Message::Prepared { item: 0, stamp: Stamp::new(1, 1) };
    let (answer, after) = delivered(before.clone(), prepared);
    (answer, before, after)
}

#[test]
fn the_last_prepared_reply_ends_the_write_and_leaves_its_client_no_set() {
    let stamp = Stamp::new(1, 1);
    let (answer, before, after) = last_prepared(3, &[]);
    let mut expected = before;
    expected.view_mut(1)[0] = entry(1, 1, &[0, 2]);
    expected.view_mut(1)[2] = entry(1, 1, &[0, 2]);
    expected.messages =
        vec![Message::Commit { partition: 0, stamp }, Message::Commit { partition: 2, stamp }];
    let mut last = Ended { kind: WRITE, set: set_of(&[0, 2]), stamp, ..Ended::NONE };
    last.values[0] = 7;
    last.values[2] = 8;
    *expected.client_mut(1) = Client { count: 1, last, ..Client::INITIAL };
    let ended = Answer::Delivered { kind: 2, messages: 2, outcome: WRITE_ENDED };
    assert_eq!(answer, ended);
    assert_eq!(after, expected);
}

#[test]
fn a_write_of_two_items_in_one_partition_sends_one_commit() {
    let (_, _, after) = last_prepared(2, &[]);
    let commit = Message::Commit { partition: 0, stamp: Stamp::new(1, 1) };
    assert_eq!(after.messages, [commit]);
}

#[test]
fn a_write_leaves_later_and_equal_view_entries() {
    let later = entry(1, 2, &[0]);
    let equal = entry(1, 1, &[1]);
    let (_, _, after) = last_prepared(2, &[(0, later), (2, equal)]);
    assert_eq!(after.view(1)[..3], [later, Entry::INITIAL, equal]);
}

#[test]
fn a_commit_is_taken_as_latest_by_the_items_of_its_partition_with_that_version() {
    let stamp = Stamp::new(2, 1);
    let mut before = tables(2, 2, 6);
    before.versions = vec![
        version(0, 1, stamp, &[0, 1, 2]),
        version(0, 1, stamp, &[0]),
        version(1, 1, stamp, &[0, 1, 2]),
        version(2, 1, stamp, &[0, 1, 2]),
        version(4, 1, Stamp::new(2, 2), &[4]),
    ];
    before.latest[2] = entry(1, 2, &[2]);
    let mut expected = before.clone();
    expected.latest[0] = entry(2, 1, &[0, 1, 2]);
    expected.latest[2] = entry(2, 1, &[0, 1, 2]);
    let commit = Message::Commit { partition: 0, stamp };
    let (answer, after) = delivered(before, commit);
    assert_eq!(answer.bytes(&[]), [0, 3, 0, 0, 0]);
    assert_eq!(after, expected);
}

#[test]
fn a_late_commit_leaves_later_and_equal_latest() {
    let stamp = Stamp::new(2, 1);
    let mut before = tables(2, 1, 3);
    for item in 0..3 {
        before.versions.push(version(item, 1, stamp, &[0, 1, 2]));
    }
    before.latest[0] = entry(2, 2, &[0]);
    before.latest[1] = entry(2, 1, &[1]);
    before.latest[2] = entry(3, 1, &[2]);
    let expected = before.clone();
    let commit = Message::Commit { partition: 0, stamp };
    let (_, after) = delivered(before, commit);
    assert_eq!(after, expected);
}

#[test]
fn a_commit_with_no_version_of_its_stamp_does_nothing() {
    let commit = Message::Commit { partition: 1, stamp: Stamp::new(9, 2) };
    let (answer, after) = delivered(tables(2, 2, 3), commit);
    assert_eq!(answer.bytes(&[]), [0, 3, 0, 0, 0]);
    assert_eq!(after, tables(2, 2, 3));
}
