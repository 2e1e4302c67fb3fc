//! Store frames and the driver that answers them.

use super::hex::{from_line, number, to_hex};
use super::log::MOST_BYTES;
use crate::call::Call;
use crate::store::Store;

/// The refusal of a malformed frame.
const MALFORMED: u8 = 15;

/// The call that a line with its 0a asks for, or what is wrong with the line.
pub fn parse(line: &[u8]) -> Result<Call, String> {
    let bytes = from_line(line)?;
    let client = bytes.get(1).copied().map_or(0, u64::from);
    let right = match bytes[..] {
        [1, clients, partitions, items] => {
            return Ok(Call::Fresh {
                long_enough: true,
                clients: clients.into(),
                partitions: partitions.into(),
                items: items.into(),
            })
        }
        [2, _, ref set @ ..] if set.len() == 8 => {
            let set = number(set);
            return Ok(Call::Read { client, set });
        }
        [3, _, ref rest @ ..] if (8..=8 + 4 * 64).contains(&rest.len()) && rest.len() % 4 == 0 => {
            return Ok(Call::Write { client, set: number(&rest[..8]), values: rest[8..].to_vec() })
        }
        [4, ref place @ ..] if place.len() == 2 => {
            let place = number(place);
            return Ok(Call::Deliver { place });
        }
        [5, _] => {
            let output = vec![0; MOST_BYTES];
            return Ok(Call::Show { client, output });
        }
        [6, _, ref set @ ..] if set.len() == 8 => {
            let set = number(set);
            return Ok(Call::FastRead { client, set });
        }
        [7, _, ref rest @ ..]
            if (16..=16 + 4 * 64).contains(&rest.len()) && rest.len() % 4 == 0 =>
        {
            let [read, write] = [&rest[..8], &rest[8..16]].map(number);
            return Ok(Call::Mixed { client, read, write, values: rest[16..].to_vec() });
        }
        [0x40] => return Ok(Call::Clear),
        [0x41, giver, receiver] => {
            return Ok(Call::HandOver { giver: giver.into(), receiver: receiver.into() })
        }
        [0x42, first, second] => {
            return Ok(Call::Compare { first: first.into(), second: second.into() })
        }
        [0x43] => return Ok(Call::Check),
        [1, ..] => "a fresh start has 4 bytes",
        [2, ..] => "a read has 10 bytes",
        [3, ..] => "a write has 10 bytes and 4 for each of at most 64 values",
        [4, ..] => "a delivery has 3 bytes",
        [5, ..] => "a showing has 2 bytes",
        [6, ..] => "a fast read has 10 bytes",
        [7, ..] => "a mixed transaction has 18 bytes and 4 for each of at most 64 values",
        [0x40, ..] => "a clearing has 1 byte",
        [0x41, ..] => "a hand-over has 3 bytes",
        [0x42, ..] => "a comparison has 3 bytes",
        [0x43, ..] => "a check has 1 byte",
        _ => return Err(format!("unknown kind {:02x}", bytes[0])),
    };
    Err(format!("wrong length: {right}, this {}", bytes.len()))
}

/// The driver's answer, in hexadecimal, to one line with its 0a. Before an accepted fresh the
/// store's sizes are 0, and the other well-formed frames answer 1.
pub fn answer_line(store: &mut Store, line: &[u8]) -> String {
    let Ok(call) = parse(line) else {
        return to_hex(&[MALFORMED]);
    };
    let (answer, event) = store.make(call);
    to_hex(&answer.bytes(&event.output))
}

/// What the driver program prints for its whole input: an answer a line, each ended by 0a.
pub fn run(input: &[u8]) -> String {
    let mut store = Store::new();
    input
        .split_inclusive(|byte| *byte == b'\n')
        .map(|line| answer_line(&mut store, line) + "\n")
        .collect()
}
