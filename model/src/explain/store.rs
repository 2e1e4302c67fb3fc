//! Calls, as store frames ask for them.

use super::words::{count, items_of, valued};
use crate::call::Call;
use crate::frames::hex::number;

/// What the call asks for.
pub fn sentence(call: &Call) -> String {
    match call {
        Call::Fresh { clients, partitions, items, .. } => {
            let clients = count(*clients, "client");
            let partitions = count(*partitions, "partition");
            let items = count(*items, "item");
            format!("fresh start with {clients}, {partitions}, {items}")
        }
        Call::Read { client, set } => {
            format!("client {client} starts to read {}", items_of(*set))
        }
        Call::FastRead { client, set } => {
            format!("client {client} starts a fast read of {}", items_of(*set))
        }
        Call::Write { client, set, values } => {
            format!("client {client} starts to write {}", written(*set, values))
        }
        Call::Mixed { client, read, write, values } => {
            let read = items_of(*read);
            format!(
                "client {client} starts to read {read} and to write {}",
                written(*write, values)
            )
        }
        Call::Deliver { place } => format!("the message at place {place} is delivered"),
        Call::Show { client, .. } => format!("client {client} is asked what it ended last"),
        Call::Clear => "old versions are cleared away".to_owned(),
        Call::HandOver { giver, receiver } => {
            format!("client {giver} is to hand over to client {receiver}")
        }
        Call::Compare { first, second } => {
            format!("client {first}'s view is compared with client {second}'s")
        }
        Call::Check => "the block is checked".to_owned(),
    }
}

/// The values of a set that has as many, or how many there are.
fn written(set: u64, bytes: &[u8]) -> String {
    let values: Vec<u32> = bytes.chunks_exact(4).map(|value| number(value) as u32).collect();
    if set != 0 && values.len() == set.count_ones() as usize {
        valued(set, &values)
    } else {
        format!("{}, with {}", items_of(set), count(values.len() as u64, "value"))
    }
}
