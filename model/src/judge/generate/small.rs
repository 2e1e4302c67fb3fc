//! Every log of two writes and a read, over two items, two writing clients and two numbers; and of
//! a write, two hand-overs and a read.

use crate::frames::log::{LogFrame, Shown};
use std::str::from_utf8;

/// The read stands above, between or below the writes, by a writing client or a third one, and
/// shows each item as initial or under any of the four stamps. A value is fixed by its stamp
/// and item. Of the pairs of writes, 54 of 144 have numbers that don't rise.
pub fn every_small_log() -> Vec<Vec<u8>> {
    let writes = every_write();
    let reads = every_read();
    let mut logs = Vec::new();
    for first in &writes {
        for second in &writes {
            for read in &reads {
                for order in [[read, first, second], [first, read, second], [first, second, read]] {
                    logs.push(order.map(String::as_bytes).concat());
                }
            }
        }
    }
    logs
}

/// Number and client of the writes.
const STAMPS: [(u32, u8); 4] = [(1, 1), (1, 2), (2, 1), (2, 2)];
const SETS: [u64; 3] = [0b01, 0b10, 0b11];

fn every_write() -> Vec<String> {
    let mut writes = Vec::new();
    for (number, client) in STAMPS {
        for set in SETS {
            let items = (0..2).filter(|item| set >> item & 1 == 1);
            let values = items.map(|item| value(number, client, item)).collect();
            writes.push(LogFrame::of_write(client, set, number, values).line());
        }
    }
    writes
}

fn every_read() -> Vec<String> {
    let mut reads = Vec::new();
    for client in 1..=3 {
        let mut read = |set, shown| reads.push(LogFrame::of_read(client, set, shown).line());
        for first in every_entry(0) {
            read(0b01, vec![first]);
            for second in every_entry(1) {
                read(0b11, vec![first, second]);
            }
        }
        for second in every_entry(1) {
            read(0b10, vec![second]);
        }
    }
    reads
}

/// The initial entry of an item, and one for each stamp.
fn every_entry(item: u32) -> Vec<Shown> {
    let mut entries = vec![Shown::INITIAL];
    for (number, client) in STAMPS {
        entries.push(Shown { number, client, value: value(number, client, item) });
    }
    entries
}

fn value(number: u32, client: u8, item: u32) -> u32 {
    100 * number + 10 * u32::from(client) + item
}

/// The log with a mixed transaction for each read, which also writes item 0 with the next number.
pub fn read_and_write(log: &[u8]) -> Vec<u8> {
    let lines = log.split_inclusive(|byte| *byte == b'\n');
    let mixed = lines.map(|line| match line.strip_prefix(b"21") {
        Some(rest) => {
            let client = from_utf8(&rest[..2]).expect("digits");
            let write = LogFrame::of_write(0, 1, 3, vec![7]).line();
            let read = from_utf8(&rest[2..rest.len() - 1]).expect("digits");
            format!("24{client}{read}{}", &write[4..]).into_bytes()
        }
        None => line.to_vec(),
    });
    mixed.collect::<Vec<_>>().concat()
}

/// Every log of a write, two hand-overs and a read of one item, over three clients, in every order.
/// The read shows the item as initial or from the write.
pub fn every_small_log_with_hand_overs() -> Vec<Vec<u8>> {
    let mut logs = Vec::new();
    for writer in 1..=3 {
        let write = LogFrame::of_write(writer, 1, 1, vec![7]).line();
        let written = Shown { number: 1, client: writer, value: 7 };
        for first in every_hand_over() {
            for second in every_hand_over() {
                for reader in 1..=3 {
                    for entry in [Shown::INITIAL, written] {
                        let read = LogFrame::of_read(reader, 1, vec![entry]).line();
                        logs.extend(every_order([&write, &first, &second, &read]));
                    }
                }
            }
        }
    }
    logs
}

/// From each of three clients to each other.
fn every_hand_over() -> Vec<String> {
    let pairs = (1..=3).flat_map(|giver| (1..=3).map(move |receiver| (giver, receiver)));
    let two = pairs.filter(|(giver, receiver)| giver != receiver);
    two.map(|(giver, receiver)| LogFrame::of_hand_over(giver, receiver).line()).collect()
}

/// The lines in each of their 24 orders.
fn every_order(lines: [&String; 4]) -> Vec<Vec<u8>> {
    let mut orders = Vec::new();
    for places in 0..4_usize.pow(4) {
        let order = [0, 1, 2, 3].map(|line| places >> (2 * line) & 3);
        let is_order = (0..4).all(|place| order.contains(&place));
        orders.extend(is_order.then(|| order.map(|place| lines[place].as_bytes()).concat()));
    }
    orders
}
