//! The words of a block after a hand-over, worked out by hand.

use koolvent_model::block::{Calls, Modelled};
use koolvent_model::layout::{fields, NEEDED};
use koolvent_model::stamp::{Entry, Stamp};
use koolvent_model::store::tables::{Sizes, Tables};

/// Stamp (1, client 1) is 17, (1, client 2) is 18 and (2, client 1) is 33. Words that are no field
/// are 9.
#[test]
fn the_receiver_s_view_takes_the_later_entries_and_all_other_words_stay() {
    let entry = |number, client, set| Entry::new(Stamp::new(number, client), set);
    let mut tables = Tables::fresh(Sizes::new(2, 2, 3));
    tables.view_mut(1)[..3].copy_from_slice(&[entry(1, 2, 1), entry(1, 1, 3), entry(1, 1, 4)]);
    tables.view_mut(2)[..3].copy_from_slice(&[entry(1, 1, 5), entry(1, 1, 2), entry(2, 1, 6)]);
    let mut words = vec![9; NEEDED + 2];
    for field in fields(&tables) {
        words[field.place] = field.word;
    }
    assert_eq!(words[272..279], [18, 1, 17, 3, 17, 4, 9]);
    assert_eq!(words[400..407], [17, 5, 17, 2, 33, 6, 9]);

    let mut expected = words.clone();
    expected[400..402].copy_from_slice(&[18, 1]);
    assert_eq!(Modelled::default().hand_over(&mut words, 1, 2), 0);
    assert_eq!(words, expected);

    assert_eq!(Modelled::default().compare(&words, 1, 2), 1 << 8);
    assert_eq!(Modelled::default().hand_over(&mut words, 2, 1), 0);
    expected[276..278].copy_from_slice(&[33, 6]);
    assert_eq!(words, expected);
    assert_eq!(Modelled::default().compare(&words, 1, 2), 0);
}
