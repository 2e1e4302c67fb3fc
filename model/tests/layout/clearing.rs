//! The words of a block after a clearing, worked out by hand.

use koolvent_model::block::{Calls, Modelled};
use koolvent_model::layout::{fields, NEEDED};
use koolvent_model::stamp::{Entry, Stamp};
use koolvent_model::store::tables::{Sizes, Tables, Version};

/// Stamp (1, client 1) is 17, and (1, client 2) is 18. Words that are no field are 9.
#[test]
fn versions_that_stay_move_down_and_all_other_words_but_the_count_stay() {
    let version = |item, value, client, set| {
        let stamp = Stamp::new(1, client);
        Version { item, value, stamp, set }
    };
    let mut tables = Tables::fresh(Sizes::new(2, 2, 3));
    tables.versions = vec![
        version(2, 4, 2, 0b100),
        version(0, 7, 1, 0b11),
        version(1, 5, 2, 0b10),
        version(1, 8, 1, 0b11),
    ];
    tables.latest[1] = Entry::new(Stamp::new(1, 1), 0b11);
    let mut words = vec![9; NEEDED + 2];
    for field in fields(&tables) {
        words[field.place] = field.word;
    }
    assert_eq!(words[3], 4);
    assert_eq!(words[4368..4385], [2, 4, 18, 4, 0, 7, 17, 3, 1, 5, 18, 2, 1, 8, 17, 3, 9]);

    let mut expected = words.clone();
    expected[3] = 2;
    expected[4368..4376].copy_from_slice(&[0, 7, 17, 3, 1, 8, 17, 3]);
    assert_eq!(Modelled::default().clear(&mut words), 2 << 8);
    assert_eq!(words, expected);

    let nothing_left = words.clone();
    assert_eq!(Modelled::default().clear(&mut words), 0);
    assert_eq!(words, nothing_left);
}
