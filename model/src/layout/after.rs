//! The words of a block after an accepted call.

use super::fields::store_fields;
use super::places::{self, Scalar, MESSAGE_WORDS, NEEDED};
use super::WRITTEN_HALF;
use crate::set::{items, without};
use crate::store::message::{FIRST_REPLY, GOT};
use crate::store::tables::{Sizes, Tables, IDLE, MIXING};

/// An accepted fresh sets every word of the needed length to 0 but the sizes.
pub fn store_fresh(words: &mut [u64], sizes: Sizes) {
    words[..NEEDED].fill(0);
    store_fields(words, &Tables::fresh(sizes));
}

/// The block of an accepted start, delivery, clearing or hand-over that left these tables;
/// `delivered` is the place of the message that was taken out. Later messages move up with all
/// their words, those that join have 0 in the words that their kind doesn't use, a reply writes
/// what it brings also where its read ends, a mixed transaction starts and ends with whole words of
/// values, and any other word, or half of one, that is no field of the tables keeps its value: so
/// do those of versions past their new count, and of a view's items that don't exist.
pub fn store_step(words: &mut [u64], delivered: Option<usize>, after: &Tables) {
    let mut messages = words[places::MESSAGES] as usize;
    if let Some(place) = delivered {
        store_answer(words, place);
        let later = places::message(place + 1)..places::message(messages);
        words.copy_within(later, places::message(place));
        messages -= 1;
    }
    for place in messages..after.messages.len() {
        words[places::message(place)..][..MESSAGE_WORDS].fill(0);
    }
    for client in 1..=after.sizes.clients as usize {
        store_halves(words, client, after);
    }
    store_fields(words, after);
}

/// For the items of either set: a mixed start leaves 0 in the halves that it doesn't use, and an
/// end takes over the words as they are.
fn store_halves(words: &mut [u64], client: usize, after: &Tables) {
    let scalar = |scalar| words[places::scalar(client, scalar)];
    let record = &after.clients[client - 1];
    match (scalar(Scalar::Mode), record.mode) {
        (IDLE, MIXING) => {
            for item in items(record.set | record.write.set) {
                words[places::value(client, item as usize)] = 0;
            }
        }
        (MIXING, IDLE) => {
            for item in items(scalar(Scalar::Set) | scalar(Scalar::WriteSet)) {
                let item = item as usize;
                words[places::last_value(client, item)] = words[places::value(client, item)];
            }
        }
        _ => (),
    }
}

/// What the message at the place brings to its read: a got or a first reply its value, of a mixed
/// transaction into the one half of the word; a first reply also its stamp and set. With the last
/// first reply the stamps that are shown are written; where the read ends with it, these are the
/// first replies' own.
fn store_answer(words: &mut [u64], place: usize) {
    let message = places::message(place);
    let kind = words[message];
    let [client, item] = [1, 2].map(|word| words[message + word] as usize);
    if ![GOT, FIRST_REPLY].contains(&kind) {
        return;
    }
    let value = places::value(client, item);
    words[value] = match words[places::scalar(client, Scalar::Mode)] {
        MIXING => words[value] & WRITTEN_HALF | words[message + 3],
        _ => words[message + 3],
    };
    if kind == GOT {
        return;
    }
    words.copy_within(message + 4..message + 6, places::first(client, item));
    let [set, awaited] =
        [Scalar::Set, Scalar::Awaited].map(|scalar| words[places::scalar(client, scalar)]);
    if without(awaited, item as u64) == 0 {
        for item in items(set).map(|item| item as usize) {
            words[places::asked(client, item)] = words[places::first(client, item)];
        }
    }
}
