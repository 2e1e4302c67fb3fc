//! Fresh, and the starts of reads and writes.

use super::{get, writing};
use crate::support::{
    entry, fresh, made, set_of, start_read, start_write, tables, value_bytes, version,
};
use koolvent_model::answer::Answer;
use koolvent_model::stamp::{Entry, Stamp};
use koolvent_model::store::message::Message;
use koolvent_model::store::tables::{Client, Ended, Tables, IDLE, READING, WRITE, WRITING};

#[test]
fn fresh_makes_initial_tables_whatever_was_there() {
    let started = start_write(2, 7, &value_bytes(&[1, 2, 3]));
    let (_, before, _) = made(&tables(3, 3, 3), started);
    let (answer, after, _) = made(&before, fresh(1, 2, 3));
    assert_eq!(answer, Answer::Fresh);
    assert_eq!(after, tables(1, 2, 3));
    assert_eq!(after.load(), 0);
}

#[test]
fn a_read_start_sends_one_get_an_item_ascending() {
    let mut before = tables(2, 2, 4);
    before.view_mut(2)[3] = entry(1, 1, &[1, 3]);
    before.messages = vec![get(1, 0, Stamp::INITIAL)];
    let mut expected = before.clone();
    expected.messages.extend([
        get(2, 0, Stamp::INITIAL),
        get(2, 1, Stamp::new(1, 1)),
        get(2, 3, Stamp::new(1, 1)),
    ]);
    let client = expected.client_mut(2);
    client.mode = READING;
    client.set = set_of(&[0, 1, 3]);
    client.awaited = set_of(&[0, 1, 3]);
    client.stamps[1] = Stamp::new(1, 1);
    client.stamps[3] = Stamp::new(1, 1);

    let (answer, after, _) = made(&before, start_read(2, set_of(&[0, 1, 3])));
    assert_eq!(answer, Answer::Started { messages: 4 });
    assert_eq!(after, expected);
}

#[test]
fn a_read_asks_for_what_an_item_outside_its_set_names() {
    let mut before = tables(2, 2, 4);
    before.view_mut(1)[0] = entry(1, 2, &[0]);
    before.view_mut(1)[3] = entry(2, 2, &[0, 3]);
    let (_, after, _) = made(&before, start_read(1, set_of(&[0])));
    assert_eq!(after.messages, [get(1, 0, Stamp::new(2, 2))]);
}

#[test]
fn a_read_asks_for_the_own_entry_of_an_item_even_where_its_set_lacks_the_item() {
    let mut before = tables(2, 2, 4);
    before.view_mut(1)[0] = entry(3, 2, &[1]);
    before.view_mut(1)[2] = entry(2, 2, &[0, 2]);
    let (_, after, _) = made(&before, start_read(1, set_of(&[0])));
    assert_eq!(after.messages, [get(1, 0, Stamp::new(3, 2))]);
}

/// Client 1, whose view has these numbers of client 2 (0 for the initial stamp) and these sets,
/// reads all items and asks for these numbers.
fn assert_asks(view: &[(u64, &[u64])], numbers: &[u64]) {
    let stamp = |number: u64| match number {
        0 => Stamp::INITIAL,
        _ => Stamp::new(number, 2),
    };
    let items = view.len() as u64;
    let mut before = tables(2, 2, items);
    for (seen, (number, set)) in before.view_mut(1).iter_mut().zip(view) {
        *seen = Entry::new(stamp(*number), set_of(set));
    }
    let (_, after, _) = made(&before, start_read(1, u64::MAX >> (64 - items)));
    let expected = (0..items).zip(numbers).map(|(item, number)| get(1, item, stamp(*number)));
    assert_eq!(after.messages, expected.collect::<Vec<Message>>());
}

#[test]
fn an_entry_counts_for_items_before_and_behind_its_own() {
    assert_asks(&[(1, &[0]), (2, &[0])], &[2, 2]);
    assert_asks(&[(2, &[1]), (1, &[1])], &[2, 2]);
    assert_asks(&[(1, &[0, 2]), (3, &[1]), (2, &[2, 0])], &[2, 3, 2]);
}

/// On a damaged block copies of one stamp's set may differ, and the initial stamp may have a set.
#[test]
fn every_entry_counts_by_its_own_set_whatever_its_neighbours_stamps() {
    assert_asks(&[(2, &[0]), (2, &[1, 2]), (1, &[2]), (1, &[3, 4]), (0, &[])], &[2, 2, 2, 1, 1]);
    assert_asks(&[(2, &[0, 3]), (1, &[1]), (2, &[2, 4]), (0, &[3]), (0, &[4])], &[2, 1, 2, 2, 2]);
    assert_asks(&[(0, &[0, 1]), (0, &[1]), (3, &[0]), (0, &[2]), (3, &[1])], &[3, 3, 3, 0, 3]);
}

#[test]
fn a_read_does_not_look_at_the_view_of_another_client() {
    let mut before = tables(2, 2, 4);
    before.view_mut(2)[0] = entry(3, 2, &[0]);
    let (_, after, _) = made(&before, start_read(1, set_of(&[0])));
    assert_eq!(after.messages, [get(1, 0, Stamp::INITIAL)]);
}

#[test]
fn a_read_start_forgets_what_damage_left_an_idle_client_and_keeps_the_last_ended() {
    let mut before = tables(1, 1, 3);
    let mut record = writing(&[]);
    record.mode = IDLE;
    record.last = Ended {
        kind: WRITE,
        set: record.set,
        stamp: Stamp::new(1, 1),
        values: record.values,
        ..Ended::NONE
    };
    *before.client_mut(1) = record;
    let (_, after, _) = made(&before, start_read(1, set_of(&[2])));
    let expected = Client {
        mode: READING,
        count: 1,
        set: set_of(&[2]),
        awaited: set_of(&[2]),
        last: record.last,
        ..Client::INITIAL
    };
    assert_eq!(*after.client(1), expected);
}

#[test]
fn a_write_start_sends_one_prepare_an_item_ascending_and_leaves_the_view() {
    let before = tables(2, 2, 3);
    let mut expected = before.clone();
    *expected.client_mut(1) = writing(&[0, 2]);
    expected.messages = vec![
        Message::Prepare(version(0, 7, Stamp::new(1, 1), &[0, 2])),
        Message::Prepare(version(2, 8, Stamp::new(1, 1), &[0, 2])),
    ];
    let (answer, after, _) = made(&before, start_write(1, set_of(&[0, 2]), &value_bytes(&[7, 8])));
    assert_eq!(answer, Answer::Started { messages: 2 });
    assert_eq!(after, expected);
}

/// Client 2's write of item 0 has this number, its count becomes it, and nothing else changes but
/// for the start of the write.
fn assert_numbered(before: &Tables, number: u64) {
    let stamp = Stamp::new(number, 2);
    let mut expected = before.clone();
    let client = expected.client_mut(2);
    *client = Client { mode: WRITING, count: number, set: 1, awaited: 1, ..*client };
    client.stamps[0] = stamp;
    client.values[0] = 7;
    expected.messages = vec![Message::Prepare(version(0, 7, stamp, &[0]))];
    let (answer, after, _) = made(before, start_write(2, 1, &value_bytes(&[7])));
    assert_eq!(answer, Answer::Started { messages: 1 });
    assert_eq!(after, expected);
}

#[test]
fn a_write_has_the_number_after_the_count_of_its_client() {
    let mut before = tables(3, 1, 1);
    before.client_mut(2).count = 4_294_967_294;
    before.client_mut(3).count = 5;
    assert_numbered(&before, 4_294_967_295);
}

#[test]
fn a_client_that_has_written_nothing_and_read_number_9_writes_number_10() {
    let mut before = tables(3, 1, 3);
    before.view_mut(2)[0] = entry(9, 1, &[0]);
    assert_numbered(&before, 10);
    before.client_mut(2).count = 9;
    assert_numbered(&before, 10);
    before.client_mut(2).count = 10;
    assert_numbered(&before, 11);
}

#[test]
fn a_number_in_the_view_counts_whoever_wrote_it_and_for_an_item_that_is_not_written() {
    for writer in [1, 2, 3] {
        let mut before = tables(3, 1, 3);
        before.client_mut(2).count = 5;
        before.view_mut(2)[0] = entry(8, 3, &[0]);
        before.view_mut(2)[2] = entry(9, writer, &[2]);
        assert_numbered(&before, 10);
    }
}

#[test]
fn the_number_after_the_greatest_but_one_of_a_view_is_the_greatest() {
    let mut before = tables(3, 1, 3);
    before.view_mut(2)[1] = entry(4_294_967_294, 1, &[1]);
    assert_numbered(&before, 4_294_967_295);
}

#[test]
fn numbers_of_other_views_of_latest_and_of_versions_do_not_count() {
    let mut before = tables(3, 1, 3);
    before.client_mut(1).count = 9;
    before.client_mut(2).count = 3;
    before.view_mut(1)[0] = entry(9, 1, &[0]);
    before.view_mut(3)[0] = entry(9, 1, &[0]);
    before.latest[0] = entry(9, 1, &[0]);
    before.versions = vec![version(0, 1, Stamp::new(9, 1), &[0])];
    assert_numbered(&before, 4);
}
