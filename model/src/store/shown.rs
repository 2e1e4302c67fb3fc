//! The log frame of a client's last ended transaction.

use super::tables::{Ended, Tables, FAST_READ, ITEMS, MIXED, READ, WRITE};
use crate::frames::log::{LogFrame, Shown};
use crate::set::items;

/// The frame that a showing gives for a client of tables in range, if a transaction of it has
/// ended.
pub(super) fn shown_frame(tables: &Tables, client: u64) -> Option<LogFrame> {
    let last = &tables.client(client).last;
    let number = narrow(last.stamp.number);
    let client = client as u8;
    match last.kind {
        READ => Some(LogFrame::of_read(client, last.set, shown(last))),
        FAST_READ => Some(LogFrame::of_fast_read(client, last.set, shown(last))),
        WRITE => {
            Some(LogFrame::of_write(client, last.set, number, written(last.set, &last.values)))
        }
        MIXED => {
            let write = (last.write_set, number, written(last.write_set, &last.write_values));
            Some(LogFrame::of_mixed(client, (last.set, shown(last)), write))
        }
        _ => None,
    }
}

/// What a read part shows.
fn shown(last: &Ended) -> Vec<Shown> {
    let values = written(last.set, &last.values);
    let entry = |(item, value): (u64, u32)| Shown {
        number: narrow(last.stamps[item as usize].number),
        client: narrow(last.stamps[item as usize].client) as u8,
        value,
    };
    items(last.set).zip(values).map(entry).collect()
}

/// The values of a set's items.
fn written(set: u64, values: &[u64; ITEMS]) -> Vec<u32> {
    items(set).map(|item| narrow(values[item as usize])).collect()
}

fn narrow(number: u64) -> u32 {
    u32::try_from(number).expect("a number of tables in range")
}
