//! What a got offers to the view (document 02, P2): the entry of its item becomes the latest of its
//! own, the reply's latest and the version, with the set of the one that stays.

use super::{delivered, got};
use crate::support::{entry, set_of, tables};
use koolvent_model::stamp::Entry;
use koolvent_model::store::tables::{Client, Version, READING};

/// Client 3 reads {0, 1} with this entry of item 0 in its view. Item 0's got, which isn't the last,
/// carries this latest and a version of that stamp and set, of value 7. Of the view nothing but
/// item 0's entry changes, which becomes this one.
fn assert_becomes(own: Entry, latest: Entry, version: Entry, expected: Entry) {
    let mut before = tables(3, 2, 3);
    let mut reader = Client { mode: READING, set: 0b11, awaited: 0b11, ..Client::INITIAL };
    reader.stamps[0] = version.stamp;
    *before.client_mut(3) = reader;
    before.view_mut(3)[0] = own;
    let mut after = before.clone();
    after.view_mut(3)[0] = expected;
    after.client_mut(3).awaited = 0b10;
    after.client_mut(3).values[0] = 7;
    let version = Version { item: 0, value: 7, stamp: version.stamp, set: version.set };
    assert_eq!(delivered(before, got(3, version, latest)).1, after);
}

#[test]
fn the_latest_of_three_stays_with_its_set() {
    let (own, latest, version) = (set_of(&[0]), set_of(&[0, 1]), set_of(&[0, 2]));
    for (first, second, third) in [((4, 3), (5, 1), (5, 2)), ((0, 0), (1, 1), (3, 1))] {
        let [first, second, third] =
            [first, second, third].map(|(number, client)| entry(number, client, &[]).stamp);
        for (stamps, set) in [
            ([third, second, first], own),
            ([third, first, second], own),
            ([second, third, first], latest),
            ([first, third, second], latest),
            ([second, first, third], version),
            ([first, second, third], version),
        ] {
            assert_becomes(
                Entry::new(stamps[0], own),
                Entry::new(stamps[1], latest),
                Entry::new(stamps[2], version),
                Entry::new(third, set),
            );
        }
    }
}

#[test]
fn its_own_stays_at_a_tie_with_the_latest() {
    for version in [entry(4, 1, &[0, 2]), entry(0, 0, &[])] {
        assert_becomes(entry(5, 2, &[0]), entry(5, 2, &[0, 1]), version, entry(5, 2, &[0]));
    }
}

#[test]
fn its_own_stays_at_a_tie_with_the_version() {
    for latest in [entry(4, 1, &[0, 1]), entry(0, 0, &[])] {
        assert_becomes(entry(5, 2, &[0]), latest, entry(5, 2, &[0, 2]), entry(5, 2, &[0]));
    }
}

#[test]
fn the_latest_stays_at_a_tie_with_the_version() {
    for own in [entry(4, 1, &[0]), entry(0, 0, &[])] {
        assert_becomes(own, entry(5, 2, &[0, 1]), entry(5, 2, &[0, 2]), entry(5, 2, &[0, 1]));
    }
}

#[test]
fn its_own_stays_where_all_are_alike() {
    let own = entry(5, 2, &[0]);
    assert_becomes(own, entry(5, 2, &[0, 1]), entry(5, 2, &[0, 2]), own);
}

/// The initial version has the empty set and is later than nothing; on a damaged block an initial
/// entry may have a set, which stays.
#[test]
fn the_initial_version_changes_no_entry() {
    for own in [Entry::INITIAL, entry(0, 0, &[0, 1]), entry(1, 1, &[0])] {
        assert_becomes(own, Entry::INITIAL, Entry::INITIAL, own);
    }
}

/// Siblings are asked for by the entry's set; their own entries stay.
#[test]
fn a_version_whose_set_lacks_its_item_is_offered_to_its_item_alone() {
    let version = entry(5, 2, &[1, 2]);
    assert_becomes(entry(4, 1, &[0]), entry(4, 2, &[0]), version, version);
}
