//! A clearing is refused by 1 alone; the places that it frees serve the next writes.

use super::{accepted, refused};
use crate::support::{
    deliver, entry, made, start_read, start_write, tables, tables_with_versions, version,
};
use koolvent_model::answer::Answer;
use koolvent_model::call::Call;
use koolvent_model::stamp::Stamp;
use koolvent_model::store::message::Message;
use koolvent_model::store::tables::{Client, Sizes, Tables, READING, WRITING};

#[test]
fn damaged_tables_are_1() {
    let mut damaged = tables(2, 2, 3);
    damaged.client_mut(2).mode = 9;
    refused(&damaged, 1, Call::Clear);
    let mut damaged = tables(2, 2, 3);
    damaged.versions = vec![version(0, 1, Stamp::INITIAL, &[0])];
    refused(&damaged, 1, Call::Clear);
    refused(&Tables::default(), 1, Call::Clear);
}

/// Though there is something to clear, too many versions and prepares are 1, and so is a load over
/// 128.
#[test]
fn full_tables_are_cleared_and_fuller_ones_are_1() {
    let sizes = Sizes::new(2, 2, 3);
    let (answer, cleared, _) = made(&tables_with_versions(sizes, 512), Call::Clear);
    assert_eq!((answer, cleared.versions.len()), (Answer::Cleared { gone: 512 }, 0));
    refused(&tables_with_versions(sizes, 513), 1, Call::Clear);
    let mut tables = tables_with_versions(sizes, 511);
    let prepare = Message::Prepare(version(1, 5, Stamp::new(1, 2), &[1]));
    tables.messages = vec![prepare];
    accepted(&tables, Call::Clear);
    tables.messages.push(prepare);
    refused(&tables, 1, Call::Clear);
    tables.messages = vec![Message::Get { client: 1, item: 0, stamp: Stamp::INITIAL }; 128];
    accepted(&tables, Call::Clear);
    tables.messages.push(tables.messages[0]);
    refused(&tables, 1, Call::Clear);
}

#[test]
fn busy_clients_and_unwanted_messages_are_no_ground() {
    let mut tables = tables(3, 2, 3);
    *tables.client_mut(1) = Client { mode: READING, set: 1, awaited: 1, ..Client::INITIAL };
    let mut writer = Client { mode: WRITING, set: 1, awaited: 1, ..Client::INITIAL };
    writer.stamps[0] = Stamp::new(1, 2);
    writer.count = 4_294_967_295;
    *tables.client_mut(2) = writer;
    tables.messages = vec![
        Message::Prepared { item: 1, stamp: Stamp::new(1, 3) },
        Message::Get { client: 1, item: 0, stamp: Stamp::new(1, 3) },
    ];
    refused(&tables, 11, deliver(0));
    refused(&tables, 12, deliver(1));
    accepted(&tables, Call::Clear);
}

/// 511 versions of item 0, of which the latest names one.
fn crowded() -> Tables {
    let mut tables = tables_with_versions(Sizes::new(2, 2, 12), 511);
    tables.latest[0] = entry(9, 1, &[0]);
    tables
}

#[test]
fn a_write_that_9_refuses_is_accepted_after_a_clearing() {
    let two = start_write(2, 0b11, &[0; 8]);
    refused(&crowded(), 9, two.clone());
    let (answer, cleared, _) = made(&crowded(), Call::Clear);
    assert_eq!(answer, Answer::Cleared { gone: 510 });
    assert_eq!(cleared.versions, [version(0, 9, Stamp::new(9, 1), &[0])]);
    let (answer, after, _) = made(&cleared, two);
    assert_eq!(answer, Answer::Started { messages: 2 });
    assert_eq!(after.versions_and_prepares(), 3);
}

/// 42 writes of 12 items and one of 6 take the 510 freed places; one place is left, which was free
/// before.
#[test]
fn as_many_places_serve_as_went() {
    let (_, mut tables, _) = made(&crowded(), Call::Clear);
    let mut write_and_end = |items: u32| {
        let set = (1 << items) - 1;
        tables = made(&tables, start_write(2, set, &vec![0; 4 * items as usize])).1;
        while !tables.messages.is_empty() {
            tables = made(&tables, deliver(0)).1;
        }
    };
    (0..42).for_each(|_| write_and_end(12));
    write_and_end(6);
    accepted(&tables, start_write(1, 1, &[0; 4]));
    refused(&tables, 9, start_write(1, 0b11, &[0; 8]));
    accepted(&tables, start_read(1, 0b11));
    assert_eq!(tables.versions_and_prepares(), 511);
}
