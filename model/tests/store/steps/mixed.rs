//! Mixed transactions (document 02, P8): starts, replies to either part, and ends.

use super::{commit, delivered, get, got, prepare, prepared};
use crate::support::{entry, made, mixed, set_of, show, tables, version};
use koolvent_model::answer::Answer;
use koolvent_model::stamp::{Entry, Stamp};
use koolvent_model::store::tables::{Client, Ended, Tables, WritePart, MIXED, MIXING};

const STAMP: Stamp = Stamp { number: 5, client: 2 };
const ASKED: Stamp = Stamp { number: 3, client: 1 };

/// Client 2 reads items 0 and 1 as of (3, 1) and writes items 1 and 3, still awaiting these.
fn under_way(read: &[u64], written: &[u64]) -> Tables {
    let mut tables = tables(3, 2, 4);
    let mut write = WritePart {
        set: set_of(&[1, 3]),
        awaited: set_of(written),
        stamp: STAMP,
        ..WritePart::NONE
    };
    (write.values[1], write.values[3]) = (71, 73);
    let mut client = Client {
        mode: MIXING,
        count: 5,
        set: set_of(&[0, 1]),
        awaited: set_of(read),
        write,
        ..Client::INITIAL
    };
    client.stamps[..2].fill(ASKED);
    client.values[..2].copy_from_slice(&[60, 61]);
    *tables.client_mut(2) = client;
    tables
}

/// What the end of it leaves client 2 with, these answers read.
fn ended(values: [u64; 2]) -> Client {
    let mut last = Ended {
        kind: MIXED,
        set: set_of(&[0, 1]),
        stamp: STAMP,
        write_set: set_of(&[1, 3]),
        ..Ended::NONE
    };
    last.stamps[..2].fill(ASKED);
    last.values[..2].copy_from_slice(&values);
    (last.write_values[1], last.write_values[3]) = (71, 73);
    Client { count: 5, last, ..Client::INITIAL }
}

/// The gets are for what the view chooses, item 1 as its sibling shows it; the number is one more
/// than the greatest in the view.
#[test]
fn a_start_sends_gets_and_then_prepares_each_ascending() {
    let mut before = tables(3, 2, 4);
    before.view_mut(2)[0] = entry(3, 1, &[0, 1]);
    before.view_mut(2)[2] = entry(4, 3, &[2]);
    before.client_mut(2).count = 1;
    before.messages = vec![get(1, 0, Stamp::INITIAL)];
    let mut expected = before.clone();
    let written = set_of(&[1, 3]);
    expected.messages.extend([
        get(2, 0, ASKED),
        get(2, 1, ASKED),
        prepare(version(1, 71, STAMP, &[1, 3])),
        prepare(version(3, 73, STAMP, &[1, 3])),
    ]);
    let mut client = *under_way(&[0, 1], &[1, 3]).client(2);
    client.values = [0; 64];
    *expected.client_mut(2) = client;
    let (answer, after, _) = made(&before, mixed(2, &[0, 1], &[(1, 71), (3, 73)]));
    assert_eq!((answer, after), (Answer::Started { messages: 5 }, expected));
    assert_eq!(client.write.set, written);
}

/// Item 1, which is read and written, is struck from the read part alone.
#[test]
fn a_got_that_is_not_the_last_is_kept_and_seen_and_ends_nothing() {
    for written in [&[1][..], &[1, 3], &[3]] {
        let before = under_way(&[1], written);
        let mut expected = before.clone();
        expected.client_mut(2).awaited = 0;
        expected.client_mut(2).values[1] = 9;
        expected.view_mut(2)[1] = entry(4, 3, &[1]);
        let reply = version(1, 9, ASKED, &[0, 1]);
        let (answer, after) = delivered(before, got(2, reply, entry(4, 3, &[1])));
        assert_eq!(answer.bytes(&[]), [0, 5, 0, 0, 0]);
        assert_eq!(after, expected);
    }
}

#[test]
fn a_prepared_reply_that_is_not_the_last_is_struck_from_the_write_part_alone() {
    for read in [&[1][..], &[0, 1], &[0]] {
        let before = under_way(read, &[1]);
        let mut expected = before.clone();
        expected.client_mut(2).write.awaited = 0;
        let (answer, after) = delivered(before, prepared(1, STAMP));
        assert_eq!(answer.bytes(&[]), [0, 2, 0, 0, 0]);
        assert_eq!(after, expected);
    }
}

#[test]
fn the_last_prepared_reply_ends_it_with_its_view_entries_and_commits() {
    let before = under_way(&[], &[3]);
    let mut expected = before.clone();
    *expected.client_mut(2) = ended([60, 61]);
    for item in [1, 3] {
        expected.view_mut(2)[item] = Entry::new(STAMP, set_of(&[1, 3]));
    }
    expected.messages = vec![commit(1, STAMP)];
    let (answer, after) = delivered(before, prepared(3, STAMP));
    assert_eq!(answer.bytes(&[]), [0, 2, 0, 1, 2]);
    assert_eq!(after, expected);
}

/// It ends as with a prepared reply: with outcome 02, not 01.
#[test]
fn the_last_got_ends_it_with_its_view_entries_and_commits() {
    let before = under_way(&[0], &[]);
    let mut expected = before.clone();
    *expected.client_mut(2) = ended([9, 61]);
    expected.view_mut(2)[0] = entry(3, 1, &[0, 1]);
    for item in [1, 3] {
        expected.view_mut(2)[item] = Entry::new(STAMP, set_of(&[1, 3]));
    }
    expected.messages = vec![commit(1, STAMP)];
    let reply = version(0, 9, ASKED, &[0, 1]);
    let (answer, after) = delivered(before, got(2, reply, Entry::INITIAL));
    assert_eq!(answer.bytes(&[]), [0, 5, 0, 1, 2]);
    assert_eq!(after, expected);
}

/// Where the got shows a later write of a written item, that one stays in the view.
#[test]
fn what_it_wrote_enters_the_view_after_what_its_last_got_offers() {
    let before = under_way(&[1], &[]);
    let reply = version(1, 9, ASKED, &[0, 1]);
    for (latest, seen) in [
        (entry(6, 1, &[1]), entry(6, 1, &[1])),
        (entry(5, 1, &[1]), Entry::new(STAMP, set_of(&[1, 3]))),
        (entry(5, 2, &[1, 2]), entry(5, 2, &[1, 2])),
    ] {
        let (_, after) = delivered(before.clone(), got(2, reply, latest));
        assert_eq!(after.view(2)[1], seen);
    }
}

/// It shows what it read, also of item 1, which it wrote itself.
#[test]
fn it_is_shown_with_its_read_part_and_then_its_write_part() {
    let mut tables = tables(3, 2, 4);
    *tables.client_mut(2) = ended([60, 61]);
    let (answer, after, output) = made(&tables, show(2));
    let frame: Vec<u8> = [
        &[0x24, 2, 0, 0, 0, 0, 0, 0, 0, 0b11][..],
        &[0, 0, 0, 3, 1, 0, 0, 0, 60, 0, 0, 0, 3, 1, 0, 0, 0, 61],
        &[0, 0, 0, 0, 0, 0, 0, 0b1010, 0, 0, 0, 5, 0, 0, 0, 71, 0, 0, 0, 73],
    ]
    .concat();
    assert_eq!(answer, Answer::Shown { length: 22 + 2 * 9 + 2 * 4 });
    assert_eq!(output[..frame.len()], frame);
    assert_eq!(after, tables);
}
