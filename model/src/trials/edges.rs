//! Lengths, numbers and rooms at their edges.

use super::agreement::agree;
use super::{Busy, Difference, Met};
use crate::answer::Answer;
use crate::block::Calls;
use crate::call::Call;
use crate::frames::log::MOST_BYTES;
use crate::layout::NEEDED;
use crate::set::size;
use crate::store::tables::WIDEST_WRITE;
use crate::store::Store;

/// Numbers that are far out of every range.
const FAR: [u64; 6] = [1 << 32, (1 << 32) + 1, 1 << 61, 1 << 63, (1 << 63) + 1, u64::MAX];

/// Each call at every edge, on a copy of the block; of fresh starts only those of `lengths`.
pub fn edges(served: &dyn Calls, busy: &Busy, met: &mut Met) -> Result<(), Difference> {
    lengths(served, busy, met)?;
    let starts = [reads(busy), writes(busy), mixed(busy)];
    let calls = [starts.concat(), deliveries(busy), showings(busy), pairs(busy)];
    for call in calls.concat().into_iter().chain([Call::Clear, Call::Check]) {
        met.count_on(&busy.tables, &call, agree(served, &busy.words, &call)?);
    }
    Ok(())
}

/// A fresh start with sizes at every edge, on a copy of the block. What it held doesn't matter, so
/// that a few blocks are enough.
pub fn fresh_starts(served: &dyn Calls, busy: &Busy, met: &mut Met) -> Result<(), Difference> {
    for call in sizes() {
        met.count_on(&busy.tables, &call, agree(served, &busy.words, &call)?);
    }
    Ok(())
}

/// Blocks of no word, one short, exact and longer.
fn lengths(served: &dyn Calls, busy: &Busy, met: &mut Met) -> Result<(), Difference> {
    let calls = [
        fresh(8, 8, 64),
        fresh(1, 1, 1),
        fresh(9, 8, 64),
        Call::Read { client: 1, set: 1 },
        Call::FastRead { client: 1, set: 1 },
        Call::Write { client: 1, set: 1, values: vec![1; 4] },
        Call::Mixed { client: 1, read: 1, write: 1, values: vec![1; 4] },
        Call::Deliver { place: 0 },
        Call::Show { client: 1, output: vec![1; MOST_BYTES] },
        Call::Clear,
        Call::HandOver { giver: 1, receiver: 2 },
        Call::Compare { first: 1, second: 1 },
        Call::Check,
    ];
    let mut words = busy.words.clone();
    words.resize(NEEDED + 70, 5);
    for length in [0, 1, 5, NEEDED - 1, NEEDED, NEEDED + 1, NEEDED + 70] {
        for call in &calls {
            met.count_on(&busy.tables, call, agree(served, &words[..length], call)?);
        }
    }
    Ok(())
}

fn fresh(clients: u64, partitions: u64, items: u64) -> Call {
    Call::Fresh { long_enough: true, clients, partitions, items }
}

/// Near edges of all three at once, and each far out of range beside two that are allowed.
fn sizes() -> Vec<Call> {
    let edges = [0, 1, 8, 9, 64, 65];
    let mut calls = Vec::new();
    for clients in edges {
        for partitions in edges {
            for items in edges {
                calls.push(fresh(clients, partitions, items));
            }
        }
    }
    for far in FAR {
        calls.extend([fresh(far, 8, 64), fresh(8, far, 64), fresh(8, 8, far)]);
    }
    calls
}

fn clients(busy: &Busy) -> Vec<u64> {
    let existing = busy.tables.sizes.clients;
    [&(0..=existing + 1).collect::<Vec<u64>>()[..], &[9, 15, 16, 17, 255, 256], &FAR].concat()
}

/// The sets at every edge; for a client far out of range one set.
fn sets(busy: &Busy, client: u64) -> Vec<u64> {
    if client > busy.tables.sizes.clients + 1 {
        return vec![1];
    }
    let items = busy.tables.sizes.items;
    let all = u64::MAX >> (64 - items);
    let past = (1 << (items - 1)) << 1;
    let [widest, wider] = [WIDEST_WRITE, WIDEST_WRITE + 1].map(|items| (1 << items) - 1);
    let few = [1, 0b11, 0b111, widest, wider, widest << 1].map(|set| set & all);
    [&few[..], &[0, 1 << (items - 1), all, past, all | past, 1 << 63, u64::MAX]].concat()
}

/// Ordinary and fast.
fn reads(busy: &Busy) -> Vec<Call> {
    let mut calls = Vec::new();
    for client in clients(busy) {
        for set in sets(busy, client) {
            calls.extend([Call::Read { client, set }, Call::FastRead { client, set }]);
        }
    }
    calls
}

fn writes(busy: &Busy) -> Vec<Call> {
    let mut calls = Vec::new();
    for client in clients(busy) {
        for set in sets(busy, client) {
            let right = 4 * size(set) as usize;
            for length in [0, right.saturating_sub(4), right.saturating_sub(1), right, right + 1] {
                calls.push(Call::Write {
                    client,
                    set,
                    values: (0..length).map(|place| place as u8).collect(),
                });
            }
        }
    }
    calls
}

/// Each set read beside an item written, written beside one read, and both read and written, here
/// also with a value byte too many.
fn mixed(busy: &Busy) -> Vec<Call> {
    let mut calls = Vec::new();
    for client in clients(busy) {
        for set in sets(busy, client) {
            for (read, write, more) in [(set, 1, 0), (1, set, 0), (set, set, 0), (set, set, 1)] {
                let length = 4 * size(write) + more;
                let values = (0..length).map(|place| place as u8).collect();
                calls.push(Call::Mixed { client, read, write, values });
            }
        }
    }
    calls
}

fn deliveries(busy: &Busy) -> Vec<Call> {
    let messages = busy.tables.messages.len() as u64;
    let places = (0..messages + 2).chain([127, 128, 129, 256, 65_536]).chain(FAR);
    places.map(|place| Call::Deliver { place }).collect()
}

/// Rooms of no byte, one short, exact and longer.
fn showings(busy: &Busy) -> Vec<Call> {
    let store = Store::with_tables(busy.tables.clone());
    let mut calls = Vec::new();
    for client in clients(busy) {
        let frame = match store.show(client, &mut [0; MOST_BYTES]) {
            Answer::Shown { length } => length as usize,
            _ => 10,
        };
        for room in [0, 1, frame - 1, frame, frame + 1, frame + 300] {
            calls.push(Call::Show { client, output: vec![0xee; room] });
        }
    }
    calls
}

/// Hand-overs and comparisons of all clients near the edge with each other, and of each far one
/// with itself and with one that exists.
fn pairs(busy: &Busy) -> Vec<Call> {
    let near = 0..=busy.tables.sizes.clients + 1;
    let each = near.clone().flat_map(|one| near.clone().map(move |other| (one, other)));
    let far = clients(busy).into_iter().filter(|client| !near.contains(client));
    let pairs = each.chain(far.flat_map(|far| [(far, 1), (1, far), (far, far)]));
    let calls = |(one, other)| {
        [
            Call::HandOver { giver: one, receiver: other },
            Call::Compare { first: one, second: other },
        ]
    };
    pairs.flat_map(calls).collect()
}
