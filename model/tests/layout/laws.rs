//! What encoder and decoder owe each other.

use koolvent_model::layout::{decode, encode, fields, is_valid, places, Sort, NEEDED};
use koolvent_model::random::Random;
use koolvent_model::runs::{run_watched, tables_amid, Sort as Runs};
use koolvent_model::stamp::{Entry, Stamp};
use koolvent_model::store::message::Message;
use koolvent_model::store::tables::{
    Client, Ended, Sizes, Tables, Version, WritePart, FAST_READ, MIXED, MIXING, READ, READING,
    SECOND_PART, WRITE, WRITING,
};
use std::collections::{BTreeMap, BTreeSet};

/// The largest tables, all of whose words that can be fields are: two of the clients read and have
/// ended writes, two fetch items again and have ended fast reads, two write and have ended reads,
/// and two have a mixed transaction and have ended one.
fn full_tables() -> Tables {
    let mut tables = Tables::fresh(Sizes::new(8, 8, 64));
    let stamp = Stamp::new(u64::from(u32::MAX), 8);
    let entry = Entry::new(stamp, u64::MAX);
    tables.latest = [entry; 64];
    *tables.view = [[entry; 64]; 8];
    for (place, record) in tables.clients.iter_mut().enumerate() {
        let (mode, kind) =
            [(READING, WRITE), (WRITING, READ), (SECOND_PART, FAST_READ), (MIXING, MIXED)]
                [place % 4];
        let mut last = Ended { kind, set: u64::MAX, values: [1; 64], ..Ended::NONE };
        match kind {
            WRITE => last.stamp = stamp,
            _ => last.stamps = [stamp; 64],
        }
        let mut write = WritePart::NONE;
        if mode == MIXING {
            write = WritePart { set: u64::MAX, awaited: u64::MAX, stamp, values: [2; 64] };
            last = Ended { stamp, write_set: u64::MAX, write_values: [2; 64], ..last };
        }
        let firsts = if mode == SECOND_PART { [entry; 64] } else { [Entry::INITIAL; 64] };
        *record = Client {
            mode,
            count: 1,
            set: u64::MAX,
            awaited: u64::MAX,
            stamps: [stamp; 64],
            values: [1; 64],
            firsts,
            write,
            last,
        };
    }
    let version = Version { item: 63, value: 1, stamp, set: u64::MAX };
    tables.versions = vec![version; 512];
    let got = Message::Got { client: 8, version, latest: entry };
    tables.messages = vec![got; 128];
    tables
}

#[test]
fn fields_lie_within_the_needed_length_and_no_two_at_one_place() {
    let full = full_tables();
    assert!(is_valid(&encode(&full)));
    let fields = fields(&full);
    let places: BTreeSet<usize> = fields.iter().map(|field| field.place).collect();
    assert_eq!(places.len(), fields.len());
    assert_eq!(places.last(), Some(&(NEEDED - 1)));
    // Header, scalars, asked and last stamps, values, first replies, latest, views, versions,
    // messages.
    let of_mixed = 2 * 3;
    let of_clients = 8 * 6 + 4 + 4 + of_mixed + 6 * 64 + 6 * 64 + 2 * 8 * 64 + 2 * 128;
    let count = 5 + of_clients + 128 + 8 * 128 + 4 * 512 + 8 * 128;
    assert_eq!(fields.len(), count);
    for field in fields {
        assert!(field.word <= field.sort.greatest(&full.sizes), "{field:?}");
    }
}

#[test]
fn the_tables_of_runs_come_back_from_their_words() {
    let mut tables_seen = 0;
    for (sort, seeds) in [(Runs::Small, 0..60), (Runs::AnySize, 60..80)] {
        for seed in seeds {
            run_watched(sort, seed, &mut |_, tables| {
                if tables.sizes.are_allowed() {
                    assert_eq!(decode(&encode(tables)).as_ref(), Some(tables), "seed {seed}");
                    tables_seen += 1;
                }
            });
        }
    }
    let crowded = tables_amid(Runs::Crowded, 1);
    assert_eq!(decode(&encode(&crowded)), Some(crowded));
    assert!(tables_seen > 5_000, "{tables_seen}");
}

#[test]
fn words_that_are_no_field_say_nothing() {
    let mut random = Random::new(7);
    for seed in 0..100 {
        let tables = tables_amid(Runs::AnySize, seed);
        let mut words: Vec<u64> = (0..NEEDED + 3).map(|_| random.number()).collect();
        for field in fields(&tables) {
            field.store(&mut words);
        }
        assert_eq!(decode(&words), Some(tables), "seed {seed}");
    }
}

#[test]
fn another_word_in_a_field_is_another_table_or_none() {
    let mut sorts = BTreeMap::new();
    let small = (0..12).map(|seed| tables_amid(Runs::Small, seed));
    for tables in small.chain((4..6).map(|seed| tables_amid(Runs::AnySize, seed))) {
        let mut words = encode(&tables);
        for field in fields(&tables) {
            let bits = [1, 1 << 40, u64::MAX].map(|bits| bits & field.mask);
            for bits in bits.into_iter().filter(|bits| *bits != 0) {
                words[field.place] = field.word ^ bits;
                assert_ne!(decode(&words).as_ref(), Some(&tables), "{field:?}");
            }
            words[field.place] = field.word;
            *sorts.entry(field.sort).or_insert(0) += 1;
        }
    }
    assert_eq!(sorts.len(), 18, "{sorts:?}");
}

#[test]
fn lengths_sizes_counts_modes_and_kinds_that_are_numbers_of_none_encode_nothing() {
    let full = encode(&full_tables());
    assert_eq!(decode(&full[..NEEDED - 1]), None);
    assert_eq!(decode(&[]), None);
    for field in fields(&full_tables()) {
        let mut words = full.clone();
        words[field.place] = field.sort.greatest(&Sizes::new(8, 8, 64)).wrapping_add(1);
        let none = matches!(
            field.sort,
            Sort::NumberOfClients
                | Sort::NumberOfPartitions
                | Sort::NumberOfItems
                | Sort::NumberOfVersions
                | Sort::NumberOfMessages
                | Sort::Mode
                | Sort::LastKind
                | Sort::MessageKind
        );
        assert_eq!(decode(&words).is_none(), none, "{field:?}");
    }
    for place in [places::CLIENTS, places::PARTITIONS, places::ITEMS, places::message(0)] {
        let mut words = full.clone();
        words[place] = 0;
        assert_eq!(decode(&words), None);
    }
}
