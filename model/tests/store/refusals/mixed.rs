//! Mixed transactions: the refusals of a read and a write, which replies are awaited, the load, and
//! what is in range.

use super::{accepted, refused};
use crate::support::{
    deliver, made, set_of, show, start_mixed, start_read, tables, tables_with_versions, version,
};
use koolvent_model::answer::Answer;
use koolvent_model::call::Call;
use koolvent_model::stamp::{Entry, Stamp};
use koolvent_model::store::message::Message;
use koolvent_model::store::range::{in_range, GREATEST};
use koolvent_model::store::tables::{Client, Sizes, Tables, WritePart, MIXING};

const STAMP: Stamp = Stamp { number: 3, client: 1 };
const ASKED: Stamp = Stamp { number: 2, client: 2 };

/// Client 1 reads items 0 and 1 and writes items 1 and 2, still awaiting these.
fn under_way(read: &[u64], written: &[u64]) -> Tables {
    let mut tables = tables(2, 2, 3);
    let write = WritePart {
        set: set_of(&[1, 2]),
        awaited: set_of(written),
        stamp: STAMP,
        ..WritePart::NONE
    };
    let (set, awaited) = (set_of(&[0, 1]), set_of(read));
    let mut client = Client { mode: MIXING, count: 3, set, awaited, write, ..Client::INITIAL };
    client.stamps[..2].fill(ASKED);
    *tables.client_mut(1) = client;
    tables
}

fn with_message(read: &[u64], written: &[u64], message: Message) -> Tables {
    let mut tables = under_way(read, written);
    tables.messages = vec![message];
    tables
}

fn got(item: u64, stamp: Stamp) -> Message {
    let version = version(item, 5, stamp, &[item]);
    Message::Got { client: 1, version, latest: Entry::INITIAL }
}

fn start(read: u64, write: u64) -> Call {
    start_mixed(2, read, write, &vec![0; 4 * write.count_ones() as usize])
}

#[test]
fn a_start_has_the_checks_of_a_read_and_a_write_in_their_order() {
    let tables = under_way(&[0], &[1]);
    for (refusal, client, read, write, values) in [
        (3, 0, 0, 0, 0),
        (3, 3, 1, 1, 4),
        (4, 1, 0, 0, 0),
        (4, 1, 1, 1, 4),
        (5, 2, 0, 1, 0),
        (5, 2, 1, 0, 0),
        (5, 2, 1 << 3, 1, 4),
        (5, 2, 1, 1 << 3, 4),
        (5, 2, 1 << 63, 1, 4),
        (6, 2, 1, 1, 3),
        (6, 2, 0b11, 1, 8),
        (6, 2, 1, 0b11, 4),
    ] {
        refused(&tables, refusal, start_mixed(client, read, write, &vec![0; values]));
    }
    accepted(&tables, start(0b111, 0b111));
    refused(&crate::support::tables(0, 2, 3), 1, start_mixed(0, 0, 0, &[]));
}

/// 17 is for the items written; reads may still take 64.
#[test]
fn a_start_of_more_than_12_items_written_is_17_whatever_it_reads() {
    let wide = Tables::fresh(Sizes::new(2, 1, 64));
    accepted(&wide, start(u64::MAX, 0xfff));
    refused(&wide, 17, start(1, 0x1fff));
    let mut seen = wide.clone();
    seen.client_mut(2).count = GREATEST;
    refused(&seen, 17, start(1, 0x1fff));
    refused(&seen, 7, start(1, 1));
}

/// An item that is read and written is two messages.
#[test]
fn the_load_takes_both_sets_a_shared_item_twice() {
    let with_messages = |messages: usize| {
        let mut tables = Tables::fresh(Sizes::new(2, 1, 64));
        let get = Message::Get { client: 1, item: 0, stamp: Stamp::INITIAL };
        tables.messages = vec![get; messages];
        tables
    };
    accepted(&with_messages(124), start(0b11, 0b11));
    refused(&with_messages(125), 8, start(0b11, 0b11));
    refused(&with_messages(127), 8, start(1, 1));
    accepted(&with_messages(128 - 64 - 12), start(u64::MAX, 0xfff));
    refused(&with_messages(129 - 64 - 12), 8, start(u64::MAX, 0xfff));
}

#[test]
fn nine_counts_the_items_written() {
    let sizes = Sizes::new(2, 1, 64);
    accepted(&tables_with_versions(sizes, 510), start(u64::MAX, 0b11));
    refused(&tables_with_versions(sizes, 511), 9, start(1, 0b11));
}

/// Prepared replies that have come count until it ends, gots never.
#[test]
fn the_load_has_its_prepared_replies_until_it_ends() {
    for (read, written, load) in [
        (&[0, 1][..], &[1, 2][..], 0),
        (&[0, 1], &[2], 1),
        (&[0, 1], &[], 2),
        (&[1], &[], 2),
        (&[], &[1], 1),
        (&[], &[1, 2], 0),
    ] {
        assert_eq!(under_way(read, written).load(), load, "{read:?}, {written:?}");
    }
    let (answer, after, _) = made(&with_message(&[0], &[], got(0, ASKED)), deliver(0));
    assert!(matches!(answer, Answer::Delivered { outcome: 2, .. }));
    assert_eq!(after.load(), 2, "the commits to two partitions");
    let mut full = under_way(&[0], &[]);
    full.messages = vec![got(0, ASKED); 125];
    accepted(&full, start_read(2, 1));
    refused(&full, 8, start_read(2, 0b11));
}

#[test]
fn a_client_in_a_mixed_transaction_is_not_idle() {
    for (read, written) in [(&[0][..], &[][..]), (&[], &[1]), (&[0], &[1])] {
        let tables = under_way(read, written);
        refused(&tables, 4, start_read(1, 1));
        refused(&tables, 4, start_mixed(1, 1, 1, &[0; 4]));
        refused(&tables, 4, show(1));
        refused(&tables, 4, Call::HandOver { giver: 1, receiver: 2 });
    }
}

/// Each part awaits its own replies, by item and stamp.
#[test]
fn a_got_is_awaited_by_the_read_part_and_a_prepared_reply_by_the_write_part() {
    accepted(&with_message(&[1], &[], got(1, ASKED)), deliver(0));
    refused(&with_message(&[1], &[1, 2], got(1, STAMP)), 11, deliver(0));
    refused(&with_message(&[0], &[1, 2], got(1, ASKED)), 11, deliver(0));
    refused(&with_message(&[0, 1], &[1, 2], got(2, ASKED)), 11, deliver(0));
    let prepared = |item: u64, stamp: Stamp| Message::Prepared { item, stamp };
    accepted(&with_message(&[], &[1], prepared(1, STAMP)), deliver(0));
    let earlier = Stamp::new(2, 1);
    for message in [prepared(1, STAMP), prepared(0, STAMP), prepared(2, earlier)] {
        refused(&with_message(&[0, 1], &[2], message), 11, deliver(0));
    }
}

#[test]
fn a_first_reply_is_not_awaited() {
    for stamp in [ASKED, Stamp::INITIAL] {
        let version = version(0, 5, stamp, &[0]);
        let reply = Message::FirstReply { client: 1, version, latest: Entry::INITIAL };
        refused(&with_message(&[0], &[1], reply), 11, deliver(0));
    }
}

/// What a mixed client's fields may be, each part by itself.
#[test]
fn its_fields_are_in_range_part_by_part() {
    let changed = |change: &dyn Fn(&mut Client)| {
        let mut tables = under_way(&[0], &[1]);
        change(tables.client_mut(1));
        in_range(&tables)
    };
    assert!(changed(&|_| ()));
    assert!(changed(&|client| client.write.awaited = 0));
    assert!(changed(&|client| client.awaited = 0));
    assert!(changed(&|client| client.write.stamp = Stamp::INITIAL));
    assert!(changed(&|client| client.write.stamp = Stamp::new(9, 2)));
    assert!(!changed(&|client| (client.awaited, client.write.awaited) = (0, 0)));
    assert!(!changed(&|client| client.write.awaited = 1));
    assert!(!changed(&|client| client.awaited = 0b100));
    assert!(!changed(&|client| client.write.set = 0b1110));
    assert!(!changed(&|client| (client.write.set, client.write.awaited) = (0, 0)));
    assert!(!changed(&|client| (client.set, client.awaited) = (0, 0)));
    assert!(!changed(&|client| client.write.stamp = Stamp::new(1, 3)));
    assert!(!changed(&|client| client.write.values[1] = 1 << 32));
    assert!(!changed(&|client| client.values[0] = 1 << 32));
    assert!(changed(&|client| client.write.values[0] = 1 << 32));
}

/// A damaged block may hold a mixed transaction of the initial stamp. A got ends it with commits of
/// that stamp, which are out of range.
#[test]
fn commits_of_the_initial_stamp_leave_a_block_that_is_refused() {
    let mut tables = with_message(&[0], &[], got(0, ASKED));
    tables.client_mut(1).write.stamp = Stamp::INITIAL;
    let (answer, after, _) = made(&tables, deliver(0));
    assert_eq!(answer, Answer::Delivered { kind: 5, messages: 2, outcome: 2 });
    refused(&after, 1, deliver(0));
    refused(&after, 1, start_read(2, 1));
}
