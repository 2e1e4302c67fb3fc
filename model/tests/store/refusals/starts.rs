//! Fresh, starts and showings: 1 to 7, 13 and 14.

use super::{accepted, refused};
use crate::support::{
    deliver, entry, fresh_on, set_of, show_in, start_read, start_write, tables, value_bytes,
};
use koolvent_model::stamp::Stamp;
use koolvent_model::store::tables::{Client, Ended, Sizes, Tables, READ, READING, WRITE, WRITING};

const NOBODY: [u64; 5] = [0, 3, 9, 1 << 63, u64::MAX];

/// Two clients, of which client 1 reads item 0.
fn with_a_reader() -> Tables {
    let mut tables = tables(2, 2, 3);
    *tables.client_mut(1) = Client { mode: READING, set: 1, awaited: 1, ..Client::INITIAL };
    tables
}

#[test]
fn fresh_is_2_for_each_size_outside_its_range() {
    let used = with_a_reader();
    for [clients, partitions, items] in [
        [0, 8, 64],
        [9, 8, 64],
        [8, 0, 64],
        [8, 9, 64],
        [8, 8, 0],
        [8, 8, 65],
        [u64::MAX, 1, 1],
        [1, 1 << 63, 1],
        [1, 1, (1 << 32) + 1],
    ] {
        let sizes = Sizes::new(clients, partitions, items);
        refused(&used, 2, fresh_on(true, sizes));
        refused(&used, 2, fresh_on(false, sizes));
    }
    accepted(&used, fresh_on(true, Sizes::new(1, 1, 1)));
}

#[test]
fn fresh_is_1_on_a_block_that_is_too_short() {
    let used = with_a_reader();
    refused(&used, 1, fresh_on(false, Sizes::new(8, 8, 64)));
}

#[test]
fn fresh_is_accepted_on_damaged_tables() {
    let mut damaged = with_a_reader();
    damaged.client_mut(2).mode = 9;
    refused(&damaged, 1, deliver(0));
    accepted(&damaged, fresh_on(true, Sizes::new(2, 2, 2)));
}

#[test]
fn a_client_that_does_not_exist_is_3() {
    let tables = tables(2, 2, 3);
    for client in NOBODY {
        refused(&tables, 3, start_read(client, 1));
        refused(&tables, 3, start_write(client, 1, &[0; 4]));
        refused(&tables, 3, show_in(client, &[0; 600]));
    }
}

#[test]
fn a_busy_client_is_4() {
    for mode in [READING, WRITING] {
        let mut tables = with_a_reader();
        tables.client_mut(1).mode = mode;
        refused(&tables, 4, start_read(1, 2));
        refused(&tables, 4, start_write(1, 2, &[0; 4]));
        refused(&tables, 4, show_in(1, &[0; 600]));
        accepted(&tables, start_read(2, 2));
    }
}

#[test]
fn a_set_that_is_empty_or_holds_an_item_that_does_not_exist_is_5() {
    let tables = tables(2, 2, 3);
    for set in [0, set_of(&[3]), set_of(&[0, 63]), u64::MAX] {
        refused(&tables, 5, start_read(1, set));
        let values = vec![0; 4 * set.count_ones() as usize];
        refused(&tables, 5, start_write(1, set, &values));
    }
    accepted(&tables, start_read(1, set_of(&[0, 1, 2])));
    let widest = crate::support::tables(1, 1, 64);
    accepted(&widest, start_read(1, u64::MAX));
}

#[test]
fn value_bytes_that_are_not_four_an_item_are_6() {
    let tables = tables(2, 2, 3);
    for length in (0..=300).filter(|length| *length != 8) {
        let values = vec![1; length];
        refused(&tables, 6, start_write(1, set_of(&[0, 2]), &values));
    }
    accepted(&tables, start_write(1, set_of(&[0, 2]), &[1; 8]));
}

#[test]
fn a_write_at_the_greatest_count_is_7() {
    let mut tables = tables(2, 2, 3);
    tables.client_mut(1).count = 4_294_967_295;
    refused(&tables, 7, start_write(1, 1, &value_bytes(&[1])));
    accepted(&tables, start_read(1, 1));
    accepted(&tables, start_write(2, 1, &value_bytes(&[1])));
    tables.client_mut(1).count = 4_294_967_294;
    accepted(&tables, start_write(1, 1, &value_bytes(&[1])));
}

#[test]
fn a_write_with_the_greatest_number_in_the_view_is_7() {
    let mut tables = tables(2, 2, 3);
    tables.view_mut(1)[2] = entry(4_294_967_295, 2, &[2]);
    refused(&tables, 7, start_write(1, 1, &value_bytes(&[1])));
    accepted(&tables, start_read(1, 1));
    accepted(&tables, start_write(2, 1, &value_bytes(&[1])));
    tables.view_mut(1)[2] = entry(4_294_967_294, 2, &[2]);
    accepted(&tables, start_write(1, 1, &value_bytes(&[1])));
}

#[test]
fn a_showing_before_any_end_is_13() {
    let tables = tables(2, 2, 3);
    refused(&tables, 13, show_in(1, &[0; 600]));
    refused(&tables, 13, show_in(2, &[]));
}

#[test]
fn a_showing_with_less_room_than_the_frame_is_14_and_leaves_the_output() {
    for (kind, length) in [(READ, 10 + 2 * 9), (WRITE, 14 + 2 * 4)] {
        let mut tables = tables(2, 2, 3);
        tables.client_mut(1).last =
            Ended { kind, set: set_of(&[0, 2]), stamp: Stamp::new(1, 1), ..Ended::NONE };
        for short in [0, 1, length - 1] {
            refused(&tables, 14, show_in(1, &vec![0xee; short]));
        }
        accepted(&tables, show_in(1, &vec![0; length]));
    }
}
