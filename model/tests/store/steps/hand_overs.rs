//! Hand-overs and comparisons (document 02, P6): the receiver's view after one, and how one view
//! stands to another.

use crate::support::{compare, deliver, entry, hand_over, made, read, tables, version, write};
use koolvent_model::answer::{Answer, AHEAD, BEHIND, NEITHER, SAME};
use koolvent_model::stamp::{Entry, Stamp};
use koolvent_model::store::message::Message;
use koolvent_model::store::tables::{Client, Ended, Tables, READ, READING, WRITING};

/// Three clients with these views of the four items that exist.
fn with_views(views: [[Entry; 4]; 3]) -> Tables {
    let mut tables = tables(3, 2, 4);
    for (client, view) in (1..).zip(views) {
        tables.view_mut(client)[..4].copy_from_slice(&view);
    }
    tables
}

/// After client 1 has handed over to client 2, that one has this view, and all else stays.
fn leaves(before: &Tables, view: [Entry; 4]) {
    let (answer, after, output) = made(before, hand_over(1, 2));
    assert_eq!(answer, Answer::HandedOver { giver: 1, receiver: 2 });
    let mut expected = before.clone();
    expected.view_mut(2)[..4].copy_from_slice(&view);
    assert_eq!((after, output), (expected, Vec::new()));
}

/// How the first of two views stands to the second, of clients 1 and 2; nothing changes, and the
/// other way round it stands the other way.
fn stands(first: [Entry; 4], standing: u64, second: [Entry; 4]) {
    let before = with_views([first, second, [Entry::INITIAL; 4]]);
    let other_way = [SAME, AHEAD, BEHIND, NEITHER][standing as usize];
    for (one, other, standing) in [(1, 2, standing), (2, 1, other_way)] {
        let (answer, after, output) = made(&before, compare(one, other));
        assert_eq!(answer, Answer::Compared { standing });
        assert_eq!((after, output), (before.clone(), Vec::new()));
    }
}

const INITIAL: [Entry; 4] = [Entry::INITIAL; 4];

/// Item 0: the receiver's is later; 1: the giver's is, by its number; 2: the giver's is, by its
/// client; 3: the giver knows of no write.
fn shift() -> [[Entry; 4]; 3] {
    [
        [entry(1, 1, &[0]), entry(3, 1, &[1, 2]), entry(2, 2, &[2]), Entry::INITIAL],
        [entry(2, 1, &[0, 3]), entry(2, 3, &[1]), entry(2, 1, &[2, 3]), entry(1, 3, &[3])],
        [entry(9, 3, &[0]), Entry::INITIAL, entry(9, 1, &[2]), entry(9, 2, &[3])],
    ]
}

#[test]
fn each_entry_becomes_the_later_of_the_two_with_its_set() {
    let [given, held, _] = shift();
    leaves(&with_views(shift()), [held[0], given[1], given[2], held[3]]);
}

#[test]
fn at_equal_stamps_the_receiver_s_own_stays() {
    let given =
        [entry(1, 1, &[0, 1]), entry(2, 3, &[1]), Entry::new(Stamp::INITIAL, 1), entry(1, 1, &[3])];
    let held = [entry(1, 1, &[0]), entry(2, 3, &[1, 2]), Entry::INITIAL, entry(1, 1, &[])];
    leaves(&with_views([given, held, INITIAL]), held);
}

#[test]
fn who_knows_of_nothing_takes_everything_and_gives_nothing() {
    let [given, ..] = shift();
    leaves(&with_views([given, INITIAL, INITIAL]), given);
    leaves(&with_views([INITIAL, given, INITIAL]), given);
}

#[test]
fn views_of_items_that_do_not_exist_are_not_handed_over() {
    let mut before = with_views(shift());
    before.view_mut(1)[4] = entry(8, 1, &[0]);
    before.view_mut(2)[5] = entry(7, 1, &[0]);
    let mut store = koolvent_model::store::Store::with_tables(before.clone());
    store.hand_over(1, 2);
    let [taken, left] = [4, 5].map(|item| store.tables.view(2)[item]);
    assert_eq!((taken, left), (Entry::INITIAL, entry(7, 1, &[0])));
    let compare = store.compare(1, 2);
    assert_eq!(compare, Answer::Compared { standing: BEHIND });
}

/// Messages, versions, latest, counts, last transactions and a third client's read under way.
#[test]
fn nothing_but_the_receiver_s_view_changes() {
    let mut before = with_views(shift());
    before.latest[1] = entry(3, 1, &[1, 2]);
    before.versions = vec![version(1, 7, Stamp::new(3, 1), &[1, 2])];
    before.messages = vec![Message::Get { client: 3, item: 1, stamp: Stamp::new(3, 1) }];
    before.client_mut(1).count = 9;
    before.client_mut(2).last = Ended { kind: READ, set: 1, ..Ended::NONE };
    let mut reading = Client { mode: READING, set: 2, awaited: 2, ..Client::INITIAL };
    reading.stamps[1] = Stamp::new(3, 1);
    *before.client_mut(3) = reading;
    let [given, held, _] = shift();
    leaves(&before, [held[0], given[1], given[2], held[3]]);
}

#[test]
fn what_is_handed_over_again_changes_nothing() {
    let (_, after, _) = made(&with_views(shift()), hand_over(1, 2));
    let (_, again, _) = made(&after, hand_over(1, 2));
    assert_eq!(again, after);
}

/// Client 1 writes items 0 and 1, and its commits are not delivered. Client 2 takes over and reads
/// both at once; without that it would know of no write. Its next write has a later number.
#[test]
fn the_receiver_s_next_read_and_write_go_by_what_it_took_over() {
    let mut calls = vec![write(1, &[(0, 7), (1, 8)])];
    calls.extend(vec![deliver(0); 4]);
    calls.extend([hand_over(1, 2), read(2, &[0, 1])]);
    let mut now = tables(2, 2, 2);
    for call in calls {
        now = made(&now, call).1;
    }
    let get = |item| Message::Get { client: 2, item, stamp: Stamp::new(1, 1) };
    assert_eq!(now.messages[2..], [get(0), get(1)]);
    for _ in 0..4 {
        now = made(&now, deliver(2)).1;
    }
    let (_, after, _) = made(&now, write(2, &[(1, 9)]));
    assert_eq!(after.client(2).count, 2);
}

#[test]
fn views_alike_in_stamps_are_the_same_whatever_their_sets() {
    let [one, ..] = shift();
    stands(one, SAME, one);
    stands(INITIAL, SAME, INITIAL);
    stands(one, SAME, one.map(|entry| Entry::new(entry.stamp, 0b1111)));
}

#[test]
fn one_earlier_entry_at_any_item_is_behind() {
    let [one, ..] = shift();
    stands(INITIAL, BEHIND, one);
    for item in 0..4 {
        let mut later = one;
        later[item] = entry(4, 1, &[]);
        stands(one, BEHIND, later);
    }
}

#[test]
fn with_equal_numbers_the_greater_client_is_later() {
    let with = |client| [Entry::INITIAL, Entry::INITIAL, Entry::INITIAL, entry(2, client, &[3])];
    stands(with(1), BEHIND, with(2));
    stands(with(3), AHEAD, with(2));
}

#[test]
fn a_greater_number_of_a_smaller_client_is_later() {
    let with = |number, client| [entry(number, client, &[0]); 4];
    stands(with(1, 3), BEHIND, with(2, 1));
}

#[test]
fn one_earlier_and_one_later_are_neither() {
    let [one, other, _] = shift();
    stands(one, NEITHER, other);
    for (earlier, later) in [(0, 1), (0, 3), (3, 0), (2, 1)] {
        let mut other = one;
        other[earlier] = entry(9, 1, &[]);
        let mut one = one;
        one[later] = entry(9, 1, &[]);
        stands(one, NEITHER, other);
    }
}

#[test]
fn busy_and_equal_clients_are_compared() {
    let mut before = with_views(shift());
    *before.client_mut(1) = Client { mode: READING, set: 1, awaited: 1, ..Client::INITIAL };
    let mut writing = Client { mode: WRITING, set: 1, awaited: 1, ..Client::INITIAL };
    writing.stamps[0] = Stamp::new(1, 2);
    *before.client_mut(2) = writing;
    for (first, second, standing) in [(1, 2, NEITHER), (1, 1, SAME), (2, 2, SAME), (3, 3, SAME)] {
        let (answer, after, _) = made(&before, compare(first, second));
        assert_eq!((answer, after), (Answer::Compared { standing }, before.clone()));
    }
}

#[test]
fn after_a_hand_over_the_receiver_is_never_behind_the_giver() {
    for (given, held) in [(shift()[0], shift()[1]), (shift()[1], shift()[0]), (INITIAL, shift()[0])]
    {
        let (_, after, _) = made(&with_views([given, held, INITIAL]), hand_over(1, 2));
        let (answer, _, _) = made(&after, compare(2, 1));
        let known = [SAME, AHEAD].map(|standing| Answer::Compared { standing });
        assert!(known.contains(&answer), "{answer:?}");
    }
}
