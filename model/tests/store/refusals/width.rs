//! A write of more than 12 items is 17; wider sets that the tables hold are in range.

use super::{accepted, refused};
use crate::support::{deliver, entry, made, show, show_in, start_read, start_write, tables};
use koolvent_model::call::Call;
use koolvent_model::stamp::{Entry, Stamp};
use koolvent_model::store::message::Message;
use koolvent_model::store::tables::{Client, Ended, Tables, Version, WRITE, WRITING};

/// The first items, and as many values.
fn start_write_of(client: u64, items: u32) -> Call {
    start_write(client, u64::MAX >> (64 - items), &vec![0; 4 * items as usize])
}

#[test]
fn a_write_of_12_items_is_accepted_and_of_more_is_17() {
    let tables = tables(2, 2, 64);
    for items in 1..=12 {
        accepted(&tables, start_write_of(1, items));
    }
    for items in 13..=64 {
        refused(&tables, 17, start_write_of(1, items));
        accepted(&tables, start_read(1, u64::MAX >> (64 - items)));
    }
}

#[test]
fn the_items_are_counted_wherever_they_lie() {
    let tables = tables(2, 2, 64);
    let scattered: u64 = (0..12).map(|place| 1 << (5 * place + 3)).sum();
    accepted(&tables, start_write(1, scattered, &[0; 48]));
    refused(&tables, 17, start_write(1, scattered | 1, &[0; 52]));
    accepted(&tables, start_write(1, 0xfff0_0000_0000_0000, &[0; 48]));
    refused(&tables, 17, start_write(1, 0xfff8_0000_0000_0000, &[0; 52]));
}

#[test]
fn thirteen_items_with_a_value_too_few_or_too_many_are_6() {
    let tables = tables(2, 2, 64);
    for bytes in [0, 48, 51, 53, 56] {
        refused(&tables, 6, start_write(1, (1 << 13) - 1, &vec![0; bytes]));
    }
}

#[test]
fn thirteen_items_at_the_greatest_number_are_17() {
    let mut tables = tables(2, 2, 64);
    tables.client_mut(1).count = 4_294_967_295;
    tables.view_mut(2)[63] = entry(4_294_967_295, 1, &[63]);
    for client in [1, 2] {
        refused(&tables, 17, start_write_of(client, 13));
        refused(&tables, 7, start_write_of(client, 12));
    }
}

const STAMP: Stamp = Stamp { number: 1, client: 2 };
const TWENTY: u64 = (1 << 20) - 1;

fn of_twenty(item: u64) -> Version {
    Version { item, value: 7 + item, stamp: STAMP, set: TWENTY }
}

/// Twenty items in one partition, each with a stored version of one write.
fn twenty_stored() -> Tables {
    let mut tables = tables(2, 1, 20);
    tables.versions = (0..20).map(of_twenty).collect();
    tables
}

/// That write, under way and with all replies but the last.
fn twenty_under_way() -> Tables {
    let mut tables = twenty_stored();
    *tables.client_mut(2) = Client {
        mode: WRITING,
        count: 1,
        set: TWENTY,
        awaited: 1 << 19,
        stamps: [STAMP; 64],
        values: [7; 64],
        ..Client::INITIAL
    };
    tables.messages = vec![Message::Prepared { item: 19, stamp: STAMP }];
    tables
}

#[test]
fn a_set_of_twenty_items_is_in_range_wherever_it_lies() {
    let mut held = vec![twenty_stored(), twenty_under_way()];
    let mut with = |change: &dyn Fn(&mut Tables)| {
        let mut tables = tables(2, 1, 20);
        change(&mut tables);
        held.push(tables);
    };
    let entry = Entry::new(STAMP, TWENTY);
    with(&|tables| tables.latest[19] = entry);
    with(&|tables| tables.view_mut(1)[19] = entry);
    with(&|tables| tables.messages = vec![Message::Prepare(of_twenty(19))]);
    let initial = Version { item: 3, value: 0, stamp: Stamp::INITIAL, set: 0 };
    for (version, latest) in [(initial, entry), (of_twenty(3), Entry::INITIAL)] {
        with(&|tables| tables.messages = vec![Message::Got { client: 2, version, latest }]);
    }
    with(&|tables| {
        let last = Ended { kind: WRITE, set: TWENTY, stamp: STAMP, ..Ended::NONE };
        *tables.client_mut(2) = Client::resting(1, last);
    });
    for tables in held {
        accepted(&tables, start_read(1, TWENTY));
        accepted(&tables, start_write_of(1, 12));
        refused(&tables, 17, start_write_of(1, 13));
    }
}

/// Its end, its showing, its commit, and a read of all its items by its own client and by another,
/// which learns of it by a first read.
#[test]
fn a_wider_write_that_a_block_holds_ends_and_is_read() {
    let (answer, ended, _) = made(&twenty_under_way(), deliver(0));
    assert_eq!(answer.bytes(&[]), [0, 2, 0, 1, 2]);
    assert_eq!(ended.view(2)[19], Entry::new(STAMP, TWENTY));
    let (answer, _, output) = made(&ended, show(2));
    assert_eq!(answer.bytes(&output)[..2], [0, 0x20]);
    assert_eq!(answer.bytes(&output).len(), 1 + 14 + 4 * 20);
    let (_, mut tables, _) = made(&ended, deliver(0));
    assert!(tables.latest[..20].iter().all(|latest| *latest == Entry::new(STAMP, TWENTY)));
    for client in [2, 1, 1] {
        tables = made(&tables, start_read(client, TWENTY)).1;
        for _ in 0..40 {
            tables = made(&tables, deliver(0)).1;
        }
    }
    for client in [1, 2] {
        let shown = tables.client(client).last;
        assert!(shown.stamps[..20].iter().all(|stamp| *stamp == STAMP), "{client}");
        assert_eq!(shown.values[19], 7 + 19);
    }
    refused(&tables, 14, show_in(1, &[0; 10 + 9 * 20 - 1]));
}

#[test]
fn a_wider_prepare_that_a_block_holds_is_delivered() {
    let mut tables = twenty_under_way();
    tables.versions.pop();
    tables.messages = vec![Message::Prepare(of_twenty(19))];
    let (_, after, _) = made(&tables, deliver(0));
    assert_eq!(after.versions.last(), Some(&of_twenty(19)));
    let (_, after, _) = made(&after, deliver(0));
    assert_eq!(after.client(2).mode, 0);
    assert_eq!(after.view(2)[19], Entry::new(STAMP, TWENTY));
}
