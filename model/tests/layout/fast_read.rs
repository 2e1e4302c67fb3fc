//! The words of fast reads, worked out by hand.

use crate::assert_words;
use koolvent_model::block::{Calls, Modelled};
use koolvent_model::layout::{fields, NEEDED};
use koolvent_model::stamp::{Entry, Stamp};
use koolvent_model::store::tables::{Sizes, Tables, Version};

const MODEL: Modelled = Modelled { fault: None };

/// Three items in two partitions, and words that are no field are 9. Client 1's write of items 0, 1
/// and 2, number 1, is stored, and committed for items 0 and 2 alone: its stamp is 17.
fn half_committed() -> Vec<u64> {
    let stamp = Stamp::new(1, 1);
    let mut tables = Tables::fresh(Sizes::new(2, 2, 3));
    tables.versions = [(0, 5), (1, 6), (2, 7)]
        .map(|(item, value)| Version { item, value, stamp, set: 0b111 })
        .to_vec();
    for item in [0, 2] {
        tables.latest[item] = Entry::new(stamp, 0b111);
    }
    let mut words = vec![9; NEEDED + 2];
    for field in fields(&tables) {
        words[field.place] = field.word;
    }
    words
}

/// The accepted call changes these rows of words and no other.
fn becomes(words: &mut [u64], rows: &[(usize, &[u64])], call: impl Fn(&mut [u64]) -> u64) {
    let before = words.to_vec();
    assert_eq!(call(words) & 0xff, 0);
    assert_words(words, &before, rows);
}

/// Client 2 reads items 0 and 1. Of item 1 nothing is committed, and item 0's first reply shows it
/// a sibling, so it is fetched again.
#[test]
fn the_words_of_a_read_that_fetches_an_item_again() {
    let mut words = half_committed();
    let gets: [u64; 16] = [6, 2, 0, 0, 0, 0, 0, 0, 6, 2, 1, 0, 0, 0, 0, 0];
    let started: [(usize, &[u64]); 5] =
        [(4, &[2]), (32, &[3, 0, 3, 3]), (1360, &[0, 0]), (1872, &[0, 0]), (6416, &gets)];
    becomes(&mut words, &started, |words| MODEL.start_fast_read(words, 2, 0b11));

    let [get, reply] = [&gets[8..], &[7, 2, 0, 5, 17, 7, 17, 7]];
    becomes(&mut words, &[(6416, get), (6424, reply)], |words| MODEL.deliver(words, 0));

    // The first reply of item 1, which lies behind, is the initial version; both come.
    let initial: [u64; 8] = [7, 2, 1, 0, 0, 0, 0, 0];
    becomes(&mut words, &[(6416, reply), (6424, &initial)], |words| MODEL.deliver(words, 0));
    let kept: [(usize, &[u64]); 6] =
        [(4, &[1]), (35, &[2]), (400, &[17, 7]), (1872, &[5]), (3472, &[17, 7]), (6416, &initial)];
    becomes(&mut words, &kept, |words| MODEL.deliver(words, 0));

    // The second part: stamp 17 is asked for, and shown, of both.
    let again: [u64; 8] = [4, 2, 1, 0, 17, 0, 0, 0];
    let second: [(usize, &[u64]); 5] =
        [(32, &[4]), (35, &[2]), (1360, &[17, 17]), (3474, &[0, 0]), (6416, &again)];
    becomes(&mut words, &second, |words| MODEL.deliver(words, 0));

    let got: [u64; 8] = [5, 2, 1, 6, 17, 7, 0, 0];
    becomes(&mut words, &[(6416, &got)], |words| MODEL.deliver(words, 0));
    let ended: [(usize, &[u64]); 6] = [
        (4, &[0]),
        (32, &[0, 0, 0, 0, 9, 3, 3]),
        (402, &[17, 7]),
        (1873, &[6]),
        (2384, &[17, 17]),
        (2896, &[5, 6]),
    ];
    becomes(&mut words, &ended, |words| MODEL.deliver(words, 0));
    assert_eq!(words[3472..3476], [17, 7, 0, 0]);
}

/// Client 2 reads items 0 and 2, which have the same write, and ends with the second first reply.
#[test]
fn the_words_of_a_read_that_fetches_nothing_again() {
    let mut words = half_committed();
    assert_eq!(MODEL.start_fast_read(&mut words, 2, 0b101), 2 << 8);
    assert_eq!(MODEL.deliver(&mut words, 0), 6 << 8 | 2 << 16);
    assert_eq!(MODEL.deliver(&mut words, 0), 6 << 8 | 2 << 16);
    assert_eq!(MODEL.deliver(&mut words, 0), 7 << 8 | 1 << 16);
    // What the last first reply brings is written as of any other, and the stamps that are shown.
    let ended: [(usize, &[u64]); 9] = [
        (4, &[0]),
        (32, &[0, 0, 0, 0, 9, 3, 5]),
        (404, &[17, 7]),
        (1360, &[17, 9, 17]),
        (1874, &[7]),
        (2384, &[17, 9, 17]),
        (2896, &[5, 9, 7]),
        (3472, &[17, 7, 9, 9, 17, 7]),
        (7440, &[9, 9]),
    ];
    becomes(&mut words, &ended, |words| MODEL.deliver(words, 0));
}
