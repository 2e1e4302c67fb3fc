//! Words that are no field, as long use could leave them: each could be the field that lies there.

use crate::layout::places::{self, Scalar, NEEDED};
use crate::random::Random;
use crate::store::tables::{Sizes, CLIENTS, ITEMS, LOAD_CAPACITY, VERSION_CAPACITY};

/// So many words, in range wherever tables of these sizes could have a field, whatever the kind of
/// a message.
pub(super) fn leftovers(sizes: &Sizes, length: usize, random: &mut Random) -> Vec<u64> {
    let mut words: Vec<u64> = (0..length).map(|_| random.number()).collect();
    for client in 1..=CLIENTS {
        words[places::scalar(client, Scalar::Stamp)] = stamp(sizes, random);
        words[places::scalar(client, Scalar::LastSet)] = set(sizes, random);
        words[places::scalar(client, Scalar::LastStamp)] = stamp(sizes, random);
        for scalar in [Scalar::WriteSet, Scalar::WriteAwaited, Scalar::LastWriteSet] {
            words[places::scalar(client, scalar)] = set(sizes, random);
        }
        for item in 0..ITEMS {
            words[places::asked(client, item)] = stamp(sizes, random);
            words[places::value(client, item)] = value(random);
            words[places::last_stamp(client, item)] = stamp(sizes, random);
            words[places::last_value(client, item)] = value(random);
            words[places::first(client, item)] = stamp(sizes, random);
            words[places::first(client, item) + 1] = set(sizes, random);
        }
    }
    for place in 0..VERSION_CAPACITY as usize {
        version(sizes, &mut words[places::version(place)..], random);
    }
    for place in 0..LOAD_CAPACITY as usize {
        let message = &mut words[places::message(place)..NEEDED];
        message[0] = random.between(1, 7);
        message[1] = random.between(1, sizes.clients.min(sizes.partitions).max(2) - 1);
        version(sizes, &mut message[2..], random);
        message[6] = stamp(sizes, random);
        message[7] = set(sizes, random);
    }
    words
}

fn version(sizes: &Sizes, words: &mut [u64], random: &mut Random) {
    let item = random.below(sizes.items);
    words[0] = item;
    words[1] = value(random);
    words[2] = stamp(sizes, random);
    words[3] = set(sizes, random) | 1 << item;
}

fn stamp(sizes: &Sizes, random: &mut Random) -> u64 {
    random.between(1, 20) * 16 + random.between(1, sizes.clients)
}

fn value(random: &mut Random) -> u64 {
    random.below(1 << 32)
}

fn set(sizes: &Sizes, random: &mut Random) -> u64 {
    random.number() & (u64::MAX >> (64 - sizes.items))
}
