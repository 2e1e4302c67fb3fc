//! The words of a session, worked out by hand.

use crate::assert_words;
use koolvent_model::layout::{decode, encode};
use koolvent_model::store::tables::Sizes;
use koolvent_model::store::Store;

/// The words of the store's tables that aren't 0.
fn assert_encoded(store: &Store, rows: &[(usize, &[u64])]) {
    let words = encode(&store.tables);
    assert_words(&words, &[0; 7440], rows);
    assert_eq!(decode(&words).as_ref(), Some(&store.tables));
}

/// Document 01's session up to its first read's end, on three items so that each section has words
/// that stay 0. Stamp (1, client 1) is 17.
#[test]
fn the_words_of_the_session() {
    let mut store = Store::new();
    store.fresh(true, Sizes::new(2, 2, 3));
    assert_encoded(&store, &[(0, &[2, 2, 3])]);

    store.start_write(1, 0b11, &[0, 0, 0, 7, 0, 0, 0, 8]);
    let prepares: [u64; 16] = [1, 0, 0, 7, 17, 3, 0, 0, 1, 0, 1, 8, 17, 3, 0, 0];
    assert_encoded(
        &store,
        &[(0, &[2, 2, 3, 0, 2]), (16, &[2, 1, 3, 3, 17]), (1808, &[7, 8]), (6416, &prepares)],
    );

    store.deliver(0);
    store.deliver(0);
    let versions: [u64; 8] = [0, 7, 17, 3, 1, 8, 17, 3];
    let replies: [u64; 16] = [2, 0, 0, 0, 17, 0, 0, 0, 2, 0, 1, 0, 17, 0, 0, 0];
    assert_encoded(
        &store,
        &[
            (0, &[2, 2, 3, 2, 2]),
            (16, &[2, 1, 3, 3, 17]),
            (1808, &[7, 8]),
            (4368, &versions),
            (6416, &replies),
        ],
    );

    store.deliver(0);
    store.deliver(0);
    store.deliver(0);
    let written: [(usize, &[u64]); 5] = [
        (16, &[0, 1, 0, 0, 0, 2, 3, 17]),
        (144, &[17, 3]),
        (272, &[17, 3, 17, 3]),
        (2832, &[7, 8]),
        (4368, &versions),
    ];
    let commit: [u64; 8] = [3, 1, 0, 0, 17, 0, 0, 0];
    let after_the_write = [&written[..], &[(0, &[2, 2, 3, 2, 1]), (6416, &commit)]];
    assert_encoded(&store, &after_the_write.concat());

    store.start_read(2, 0b11);
    store.deliver(1);
    let get: [u64; 8] = [4, 2, 1, 0, 0, 0, 0, 0];
    let got: [u64; 8] = [5, 2, 0, 0, 0, 0, 17, 3];
    let reading: [(usize, &[u64]); 5] =
        [(0, &[2, 2, 3, 2, 3]), (32, &[1, 0, 3, 3]), (6416, &commit), (6424, &get), (6432, &got)];
    assert_encoded(&store, &[&written[..], &reading].concat());

    store.deliver(1);
    store.deliver(1);
    store.deliver(1);
    let read: [(usize, &[u64]); 4] =
        [(0, &[2, 2, 3, 2, 1]), (32, &[0, 0, 0, 0, 0, 1, 3]), (400, &[17, 3]), (6416, &commit)];
    assert_encoded(&store, &[&written[..], &read].concat());

    store.start_read(2, 0b110);
    let asked: [u64; 16] = [4, 2, 1, 0, 17, 0, 0, 0, 4, 2, 2, 0, 0, 0, 0, 0];
    let reading_again: [(usize, &[u64]); 6] = [
        (0, &[2, 2, 3, 2, 3]),
        (32, &[1, 0, 6, 6, 0, 1, 3]),
        (400, &[17, 3]),
        (1361, &[17]),
        (6416, &commit),
        (6424, &asked),
    ];
    assert_encoded(&store, &[&written[..], &reading_again].concat());

    store.deliver(1);
    store.deliver(1);
    let gots: [u64; 16] = [5, 2, 1, 8, 17, 3, 0, 0, 5, 2, 2, 0, 0, 0, 0, 0];
    let answered = [&reading_again[..5], &[(6424, &gots)]].concat();
    assert_encoded(&store, &[&written[..], &answered].concat());

    store.deliver(1);
    store.deliver(1);
    let read_again: [(usize, &[u64]); 6] = [
        (0, &[2, 2, 3, 2, 1]),
        (32, &[0, 0, 0, 0, 0, 1, 6]),
        (400, &[17, 3, 17, 3]),
        (2385, &[17]),
        (2897, &[8]),
        (6416, &commit),
    ];
    assert_encoded(&store, &[&written[..], &read_again].concat());

    // Client 2 has seen number 1, so its first write has number 2, and its count is 2.
    store.start_write(2, 0b100, &[0, 0, 0, 9]);
    let prepare: [u64; 8] = [1, 0, 2, 9, 34, 4, 0, 0];
    let writing: [(usize, &[u64]); 8] = [
        (0, &[2, 2, 3, 2, 2]),
        (32, &[2, 2, 4, 4, 34, 1, 6]),
        (400, &[17, 3, 17, 3]),
        (1874, &[9]),
        (2385, &[17]),
        (2897, &[8]),
        (6416, &commit),
        (6424, &prepare),
    ];
    assert_encoded(&store, &[&written[..], &writing].concat());
}
