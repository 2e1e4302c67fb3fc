//! Frames of last ended transactions.

use crate::support::{made, set_of, show, tables};
use koolvent_model::answer::Answer;
use koolvent_model::stamp::Stamp;
use koolvent_model::store::tables::{Ended, READ, WRITE};

/// The frame shown for a last ended transaction of client 1, whose count is 9.
fn shown(last: Ended) -> Vec<u8> {
    let mut tables = tables(2, 2, 3);
    tables.client_mut(1).count = 9;
    tables.client_mut(1).last = last;
    let (answer, _, output) = made(&tables, show(1));
    let Answer::Shown { length } = answer else {
        panic!("not shown");
    };
    let (frame, past) = output.split_at(length as usize);
    assert!(past.iter().all(|byte| *byte == 0xee));
    frame.to_vec()
}

#[test]
fn a_write_is_shown_with_the_number_of_its_stamp_and_not_the_count() {
    let mut last = Ended {
        kind: WRITE,
        set: set_of(&[0, 2]),
        stamp: Stamp::new(0x0102_0304, 2),
        ..Ended::NONE
    };
    last.values[0] = 0xa0b0_c0d0;
    last.values[2] = 5;
    let frame = [0x20, 1, 0, 0, 0, 0, 0, 0, 0, 5, 1, 2, 3, 4, 0xa0, 0xb0, 0xc0, 0xd0, 0, 0, 0, 5];
    assert_eq!(shown(last), frame);
}

#[test]
fn a_read_is_shown_with_stamp_and_value_of_each_item() {
    let mut last = Ended { kind: READ, set: set_of(&[0, 2]), ..Ended::NONE };
    last.values[2] = 5;
    last.stamps[2] = Stamp::new(0x0102_0304, 2);
    let frame =
        [0x21, 1, 0, 0, 0, 0, 0, 0, 0, 5, 0, 0, 0, 0, 0, 0, 0, 0, 0, 1, 2, 3, 4, 2, 0, 0, 0, 5];
    assert_eq!(shown(last), frame);
}

#[test]
fn a_last_transaction_with_an_empty_set_is_shown_as_one() {
    let empty = |kind| Ended { kind, stamp: Stamp::new(3, 1), ..Ended::NONE };
    let read = [0x21, 1, 0, 0, 0, 0, 0, 0, 0, 0];
    let write = [0x20, 1, 0, 0, 0, 0, 0, 0, 0, 0, 0, 0, 0, 3];
    assert_eq!(shown(empty(READ)), read);
    assert_eq!(shown(empty(WRITE)), write);
}
