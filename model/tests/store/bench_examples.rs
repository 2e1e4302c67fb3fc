//! Document 01's bench examples of the store.

use crate::support::{
    entry, fresh, made, set_of, start_read, start_write, tables, tables_with_versions, value_bytes,
};
use koolvent_model::answer::Answer;
use koolvent_model::stamp::Stamp;
use koolvent_model::store::message::Message;
use koolvent_model::store::tables::{Sizes, Tables};

#[test]
fn fresh_of_the_largest_sizes_is_accepted_and_of_nine_clients_is_2() {
    let (answer, _, _) = made(&tables(1, 1, 1), fresh(8, 8, 64));
    assert_eq!(answer, Answer::Fresh);
    let (answer, _, _) = made(&tables(1, 1, 1), fresh(9, 8, 64));
    assert_eq!(answer, Answer::Refused(2));
}

/// Fresh tables with so many gets in flight.
fn tables_with_load(load: usize) -> Tables {
    let mut tables = tables(2, 2, 2);
    let get = Message::Get { client: 2, item: 0, stamp: Stamp::INITIAL };
    tables.messages = vec![get; load];
    tables
}

/// The answers to a read's and to a write's start of items 0 and 1.
fn starts_of_two(tables: &Tables) -> [Answer; 2] {
    let set = set_of(&[0, 1]);
    let write = start_write(1, set, &value_bytes(&[1, 2]));
    [start_read(1, set), write].map(|call| made(tables, call).0)
}

#[test]
fn at_load_126_two_items_are_accepted_and_at_127_they_are_8() {
    let accepted = Answer::Started { messages: 128 };
    assert_eq!(starts_of_two(&tables_with_load(126)), [accepted; 2]);
    assert_eq!(starts_of_two(&tables_with_load(127)), [Answer::Refused(8); 2]);
}

#[test]
fn at_510_versions_two_items_are_accepted_and_at_511_they_are_9() {
    let write = |versions| starts_of_two(&tables_with_versions(Sizes::new(2, 2, 2), versions))[1];
    assert_eq!(write(510), Answer::Started { messages: 2 });
    assert_eq!(write(511), Answer::Refused(9));
}

/// The stamps that a read of items 0 and 1 by client 1 asks for.
fn asked(tables: Tables) -> Vec<Stamp> {
    let (answer, after, _) = made(&tables, start_read(1, set_of(&[0, 1])));
    assert_eq!(answer, Answer::Started { messages: 2 });
    let stamps = after.messages.iter().map(|message| match message {
        Message::Get { stamp, .. } => *stamp,
        other => panic!("{other:?} is not a get"),
    });
    stamps.collect()
}

#[test]
fn a_greater_number_whose_set_holds_both_items_is_asked_for_twice() {
    let mut tables = tables(2, 2, 2);
    tables.view_mut(1)[0] = entry(2, 1, &[0, 1]);
    tables.view_mut(1)[1] = entry(1, 2, &[1]);
    assert_eq!(asked(tables), [Stamp::new(2, 1), Stamp::new(2, 1)]);
}

#[test]
fn with_equal_numbers_the_greater_client_is_asked_for() {
    let mut tables = tables(2, 2, 2);
    tables.view_mut(1)[0] = entry(1, 2, &[0]);
    tables.view_mut(1)[1] = entry(1, 1, &[0, 1]);
    assert_eq!(asked(tables), [Stamp::new(1, 2), Stamp::new(1, 1)]);
}
