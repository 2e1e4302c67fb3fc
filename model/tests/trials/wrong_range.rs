//! Wrong range checks, each caught.

use crate::range;
use koolvent_model::layout::places::{self, Scalar, MESSAGE_WORDS};
use koolvent_model::layout::{decode, is_valid};
use koolvent_model::set::{has, size};
use koolvent_model::store::range::in_range;
use koolvent_model::store::tables::{
    Client, FIRST_PART, IDLE, MIXING, READING, SECOND_PART, WRITING,
};

/// The check that first puts `good` for `bad` at the place is caught.
fn lax_is_caught(name: &str, place: usize, bad: u64, good: u64) {
    let lax = |words: &[u64]| {
        let mut words = words.to_vec();
        match words.get_mut(place) {
            Some(word) if *word == bad => *word = good,
            _ => (),
        }
        is_valid(&words)
    };
    assert!(range(&lax).is_err(), "{name}");
}

/// The check that refuses a word at the place besides is caught.
fn strict_is_caught(name: &str, place: usize, refused: u64) {
    let strict = |words: &[u64]| is_valid(words) && words[place] != refused;
    assert!(range(&strict).is_err(), "{name}");
}

#[test]
fn a_number_of_none_accepted() {
    let mode = places::scalar(1, Scalar::Mode);
    let kind = places::scalar(1, Scalar::LastKind);
    let message = places::message(0);
    for as_mode in 0..6 {
        lax_is_caught("mode 6", mode, 6, as_mode);
        lax_is_caught("last kind 5", kind, 5, as_mode.min(4));
    }
    for as_kind in 1..8 {
        lax_is_caught("message kind 0", message, 0, as_kind);
        lax_is_caught("message kind 8", message, 8, as_kind);
    }
    lax_is_caught("129 messages", places::MESSAGES, 129, 128);
    lax_is_caught("513 versions", places::VERSIONS, 513, 512);
    lax_is_caught("9 clients", places::CLIENTS, 9, 8);
    lax_is_caught("65 items", places::ITEMS, 65, 64);
}

#[test]
fn a_number_past_its_range_accepted() {
    let count = places::scalar(1, Scalar::Count);
    lax_is_caught("count", count, 1 << 32, 0);
    lax_is_caught("latest stamp", places::latest(0), 1, 0);
    let spare_bits = |words: &[u64]| {
        let mut words = words.to_vec();
        if let Some(word) = words.get_mut(places::latest(0)) {
            *word &= (1 << 36) - 1;
        }
        is_valid(&words)
    };
    assert!(range(&spare_bits).is_err());
}

/// The words of a block with those of each message of this kind in flight changed by this.
fn with_messages(words: &[u64], kind: u64, change: impl Fn(&mut [u64])) -> Vec<u64> {
    let mut words = words.to_vec();
    let messages = decode(&words).map_or(0, |tables| tables.messages.len());
    for message in (0..messages).map(places::message) {
        if words[message] == kind {
            change(&mut words[message..][..MESSAGE_WORDS]);
        }
    }
    words
}

/// Gots and first replies use all words, a first get its client and item.
#[test]
fn a_word_of_a_reply_or_first_get_out_of_range_accepted() {
    let in_range = [0, 1, 0, 0, 0, 0, 0, 0];
    for (kind, used) in [(5, 1..8), (7, 1..8), (6, 1..3)] {
        for word in used {
            let unchecked = |words: &[u64]| {
                is_valid(&with_messages(words, kind, |message| message[word] = in_range[word]))
            };
            assert!(range(&unchecked).is_err(), "word {word} of kind {kind}");
        }
    }
}

#[test]
fn a_reply_s_set_without_its_item_refused() {
    for kind in [5, 7] {
        let strict = |words: &[u64]| {
            let with_item = with_messages(words, kind, |message| {
                if !has(message[5], message[2]) {
                    message[5] = u64::MAX;
                }
            });
            is_valid(words) && with_item == words
        };
        assert!(range(&strict).is_err(), "kind {kind}");
    }
}

/// The words of a block with those of the first reply of each client and item changed by this.
fn with_firsts(words: &[u64], change: impl Fn(&mut [u64], &Client, u64)) -> Vec<u64> {
    let mut words = words.to_vec();
    let Some(tables) = decode(&words) else {
        return words;
    };
    for client in 1..=tables.sizes.clients {
        let record = tables.client(client);
        for item in 0..tables.sizes.items {
            let place = places::first(client as usize, item as usize);
            change(&mut words[place..place + 2], record, item);
        }
    }
    words
}

#[test]
fn a_first_reply_out_of_range_accepted() {
    for word in 0..2 {
        let unchecked =
            |words: &[u64]| is_valid(&with_firsts(words, |first, _, _| first[word] = 0));
        assert!(range(&unchecked).is_err(), "word {word}");
    }
}

/// Of an item still awaited in a first part, of one outside the set, and of any item in the other
/// modes, no first reply is a field.
#[test]
fn a_first_reply_that_is_not_kept_checked() {
    let within = [READING, WRITING, FIRST_PART, MIXING].map(|mode| (mode, true));
    let outside =
        [IDLE, READING, WRITING, FIRST_PART, SECOND_PART, MIXING].map(|mode| (mode, false));
    for (mode, is_in_set) in within.into_iter().chain(outside) {
        let strict = |words: &[u64]| {
            let spoilt = with_firsts(words, |first, client, item| {
                let is_that = client.mode == mode && has(client.set, item) == is_in_set;
                if is_that && !has(client.first_replied(), item) && first[1] > 1 << 60 {
                    first[0] = u64::MAX;
                }
            });
            is_valid(words) && spoilt == words
        };
        assert!(range(&strict).is_err(), "mode {mode}, in its set: {is_in_set}");
    }
}

/// In a second part all are kept, those of items awaited again too.
#[test]
fn a_second_part_s_awaited_first_reply_unchecked() {
    let unchecked = |words: &[u64]| {
        is_valid(&with_firsts(words, |first, client, item| {
            if client.mode == SECOND_PART && has(client.awaited, item) {
                first.fill(0);
            }
        }))
    };
    assert!(range(&unchecked).is_err());
}

#[test]
fn a_range_one_too_narrow() {
    let count = places::scalar(1, Scalar::Count);
    strict_is_caught("count", count, (1 << 32) - 1);
    strict_is_caught("partitions", places::PARTITIONS, 8);
    strict_is_caught("messages", places::MESSAGES, 128);
    strict_is_caught("versions", places::VERSIONS, 512);
    strict_is_caught("kind", places::scalar(1, Scalar::LastKind), 4);
    strict_is_caught("mode", places::scalar(1, Scalar::Mode), 5);
    strict_is_caught("message kind", places::message(0), 7);
}

#[test]
fn a_word_that_is_no_field_checked() {
    let strict =
        |words: &[u64]| is_valid(words) && words[places::UNUSED].iter().all(|word| *word == 0);
    assert!(range(&strict).is_err());
}

#[test]
fn a_load_that_forgets_replies_and_versions_without_prepares() {
    let forgets_replies = |words: &[u64]| {
        decode(words).is_some_and(|tables| {
            in_range(&tables)
                && tables.messages.len() <= 128
                && tables.versions_and_prepares() <= 512
        })
    };
    assert!(range(&forgets_replies).is_err());
    let forgets_first_replies = |words: &[u64]| {
        decode(words).is_some_and(|tables| {
            let clients = tables.existing_clients().filter(|client| client.mode == FIRST_PART);
            let first: u64 = clients.map(|client| size(client.first_replied())).sum();
            in_range(&tables)
                && tables.load() - first <= 128
                && tables.versions_and_prepares() <= 512
        })
    };
    assert!(range(&forgets_first_replies).is_err());
    let counts_them_in_the_second_part = |words: &[u64]| {
        decode(words).is_some_and(|tables| {
            let clients = tables.existing_clients().filter(|client| client.mode == SECOND_PART);
            let second: u64 = clients.map(|client| size(client.set & !client.awaited)).sum();
            is_valid(words) && tables.load() + second <= 128
        })
    };
    assert!(range(&counts_them_in_the_second_part).is_err());
    let forgets_prepares = |words: &[u64]| {
        decode(words).is_some_and(|tables| in_range(&tables) && tables.load() <= 128)
    };
    assert!(range(&forgets_prepares).is_err());
}
