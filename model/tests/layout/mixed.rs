//! The words of mixed transactions, worked out by hand.

use koolvent_model::block::{Calls, Modelled};
use koolvent_model::layout::{decode, fields, is_valid, NEEDED};
use koolvent_model::stamp::{Entry, Stamp};
use koolvent_model::store::tables::{Sizes, Tables, Version};

const MODEL: Modelled = Modelled { fault: None };

/// In the high half of a word.
const fn high(value: u64) -> u64 {
    value << 32
}

/// Three items in two partitions, and words that are no field are 9. Client 1's write of item 0,
/// number 1, value 5, is committed and in client 2's view: its stamp is 17.
fn written() -> Vec<u64> {
    let stamp = Stamp::new(1, 1);
    let mut tables = Tables::fresh(Sizes::new(2, 2, 3));
    tables.versions = vec![Version { item: 0, value: 5, stamp, set: 1 }];
    tables.latest[0] = Entry::new(stamp, 1);
    tables.view_mut(2)[0] = Entry::new(stamp, 1);
    let mut words = vec![9; NEEDED + 2];
    for field in fields(&tables) {
        field.store(&mut words);
    }
    words
}

/// The words become these, as the place of the first of a row and the row, and no other changes.
fn becomes(words: &mut [u64], rows: &[(usize, &[u64])], call: impl Fn(&mut [u64]) -> u64) {
    let mut expected = words.to_vec();
    for (place, row) in rows {
        expected[*place..][..row.len()].copy_from_slice(row);
    }
    let answer = call(words);
    assert_eq!(answer & 0xff, 0);
    let differ: Vec<(usize, u64, u64)> = (0..words.len())
        .filter(|place| words[*place] != expected[*place])
        .map(|place| (place, words[place], expected[place]))
        .collect();
    assert_eq!(differ, [], "place, word, worked out by hand");
}

/// Client 2 reads items 0 and 1 and writes 6 to item 0 and 7 to item 2, with number 2: stamp 34.
fn start(words: &mut [u64]) -> u64 {
    MODEL.start_mixed(words, 2, 0b011, 0b101, &[0, 0, 0, 6, 0, 0, 0, 7])
}

/// Words 2 and 3 of the client are the read part's, 8 and 9 the write part's; the values lie in the
/// halves, and both of each item of either set are written.
#[test]
fn the_words_of_one_that_a_got_ends() {
    let mut words = written();
    let [get_0, get_1] = [[4, 2, 0, 0, 17, 0, 0, 0], [4, 2, 1, 0, 0, 0, 0, 0]];
    let [prepare_0, prepare_2] = [[1, 0, 0, 6, 34, 5, 0, 0], [1, 0, 2, 7, 34, 5, 0, 0]];
    let messages = [get_0, get_1, prepare_0, prepare_2].concat();
    let started: [(usize, &[u64]); 6] = [
        (4, &[4]),
        (32, &[5, 2, 3, 3, 34]),
        (40, &[5, 5]),
        (1360, &[17, 0]),
        (1872, &[high(6), 0, high(7)]),
        (6416, &messages),
    ];
    becomes(&mut words, &started, start);

    for _ in 0..2 {
        MODEL.deliver(&mut words, 2);
    }
    let [prepared_0, prepared_2] = [[2, 0, 0, 0, 34, 0, 0, 0], [2, 0, 2, 0, 34, 0, 0, 0]];
    assert_eq!(words[6432..6448], [prepared_0, prepared_2].concat());
    let struck: [(usize, &[u64]); 3] = [(4, &[3]), (41, &[4]), (6432, &prepared_2)];
    becomes(&mut words, &struck, |words| MODEL.deliver(words, 2));
    becomes(&mut words, &[(4, &[2]), (41, &[0])], |words| MODEL.deliver(words, 2));

    for _ in 0..2 {
        MODEL.deliver(&mut words, 0);
    }
    let [got_0, got_1] = [[5, 2, 0, 5, 17, 1, 17, 1], [5, 2, 1, 0, 0, 0, 0, 0]];
    assert_eq!(words[6416..6432], [got_0, got_1].concat());
    // The got writes the low half alone.
    let answered: [(usize, &[u64]); 4] =
        [(4, &[1]), (35, &[2]), (1872, &[high(6) + 5]), (6416, &got_1)];
    becomes(&mut words, &answered, |words| MODEL.deliver(words, 0));

    // The last got ends it: the whole words are kept, words 8 and 9 stay as they were.
    let ended: [(usize, &[u64]); 8] = [
        (4, &[1]),
        (32, &[0, 2, 0, 0, 34, 4, 3, 34]),
        (40, &[5, 0, 5]),
        (400, &[34, 5]),
        (404, &[34, 5]),
        (2384, &[17, 0]),
        (2896, &[high(6) + 5, 0, high(7)]),
        (6416, &[3, 0, 0, 0, 34, 0, 0, 0]),
    ];
    becomes(&mut words, &ended, |words| MODEL.deliver(words, 0));
    assert_eq!(words[1872..1875], [high(6) + 5, 0, high(7)]);
}

/// With the last prepared reply word 9 keeps the item that it was for.
#[test]
fn the_words_of_one_that_a_prepared_reply_ends() {
    let mut words = written();
    assert_eq!(start(&mut words), 4 << 8);
    // Both gets, both gots; both prepares; one prepared reply.
    for place in [0, 0, 2, 2, 0, 0, 0] {
        assert_eq!(MODEL.deliver(&mut words, place) & 0xff, 0);
    }
    assert_eq!(words[32..42], [5, 2, 3, 0, 34, 0, 9, 9, 5, 4]);
    let ended: [(usize, &[u64]); 7] = [
        (32, &[0, 2, 0, 0, 34, 4, 3, 34]),
        (40, &[5, 4, 5]),
        (400, &[34, 5]),
        (404, &[34, 5]),
        (2384, &[17, 0]),
        (2896, &[high(6) + 5, 0, high(7)]),
        (6416, &[3, 0, 0, 0, 34, 0, 0, 0]),
    ];
    becomes(&mut words, &ended, |words| MODEL.deliver(words, 0));
}

/// Each half is a field for the items of its own part alone; any word is in range.
#[test]
fn either_half_of_a_word_is_a_value_of_its_own_part() {
    let mut words = written();
    start(&mut words);
    words[1872..1875].fill(high(0xffff_ffff) + 8);
    assert!(is_valid(&words));
    let tables = decode(&words).expect("tables");
    let client = tables.client(2);
    assert_eq!(client.values[..3], [8, 8, 0]);
    assert_eq!(client.write.values[..3], [0xffff_ffff, 0, 0xffff_ffff]);
}

/// Neither set may be empty, and one of the two awaits an item.
#[test]
fn a_mixed_client_has_both_parts_and_awaits_an_item_of_one() {
    let mut words = written();
    start(&mut words);
    for (place, word, valid) in [
        (35, 0, true),
        (41, 0, true),
        (34, 0, false),
        (40, 0, false),
        (41, 2, false),
        (41, 1, true),
        (35, 4, false),
        (36, 0, true),
        (36, 1, false),
        (40, 15, false),
        (32, 6, false),
        (32, 0, false),
    ] {
        let mut words = words.clone();
        words[place] = word;
        assert_eq!(is_valid(&words), valid, "{word} at {place}");
    }
    words[35] = 0;
    words[41] = 0;
    assert!(!is_valid(&words));
}
