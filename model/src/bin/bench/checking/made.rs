//! Blocks that no list of calls leaves, made by hand: damaged ones, and such as the check accepts.
//! Every view, latest, message and kept first reply names a stamp that is slow to look at. Views
//! name other stamps than latest do, where there are others of the item.

use super::walks::{slot_of, Walks};
use super::{Block, Family};
use koolvent_model::layout::encode;
use koolvent_model::random::Random;
use koolvent_model::stamp::{Entry, Stamp};
use koolvent_model::store::message::Message;
use koolvent_model::store::tables::{
    Client, Sizes, Tables, Version, CLIENTS, ITEMS, LOAD_CAPACITY, READING, SECOND_PART,
    VERSION_CAPACITY, WIDEST_WRITE,
};

const ALL: u64 = u64::MAX;
const VERSIONS: usize = VERSION_CAPACITY as usize;
const GREATEST: u64 = u32::MAX as u64;

/// Stamps whose numbers are so far apart are alike in the 26 bits that tell the slots of their
/// items' keys.
const ALIKE: u64 = 1 << 22;

/// What is stored, and of each item what is named: by its latest, and by everything else.
struct Made {
    what: String,
    versions: Vec<Version>,
    latest: [Entry; ITEMS],
    named: [Entry; ITEMS],
}

impl Made {
    fn new(what: String) -> Made {
        let [latest, named] = [[Entry::INITIAL; ITEMS]; 2];
        Made { what, versions: Vec::new(), latest, named }
    }

    /// One version more. The last of an item is named, and the one before it is the latest.
    fn store(&mut self, item: u64, stamp: Stamp, set: u64) {
        self.versions.push(Version { item, value: item, stamp, set });
        self.name(item as usize, Entry::new(stamp, set));
    }

    fn name(&mut self, item: usize, entry: Entry) {
        let before = self.named[item];
        self.latest[item] = if before == Entry::INITIAL { entry } else { before };
        self.named[item] = entry;
    }

    /// With two clients that read all items, whose 128 gots are in flight; and with eight that
    /// fetch 16 items each again, and keep all their first replies.
    fn blocks(self) -> [Block; 2] {
        let reading = self.block("", 2, READING, ALL);
        let again = self.block(", first replies kept", 8, SECOND_PART, 0x8888_8888_8888_8888);
        [reading, again]
    }

    fn block(&self, how: &str, readers: usize, mode: u64, awaited: u64) -> Block {
        let mut tables = Tables::fresh(Sizes::new(CLIENTS as u64, 8, ITEMS as u64));
        tables.versions = self.versions.clone();
        tables.latest = self.latest;
        *tables.view = [self.named; CLIENTS];
        let stamps = self.named.map(|entry| entry.stamp);
        let mut values = [0; ITEMS];
        for (item, entry) in self.named.iter().enumerate() {
            values[item] = if entry.stamp == Stamp::INITIAL { 0 } else { item as u64 };
        }
        for (place, client) in tables.clients.iter_mut().enumerate() {
            client.count = GREATEST;
            if place < readers {
                let firsts = self.named;
                *client = Client { mode, set: ALL, awaited, stamps, values, firsts, ..*client };
            }
        }
        let got = |client: usize, item: usize| {
            let Entry { stamp, set } = self.named[item];
            let version = Version { item: item as u64, value: values[item], stamp, set };
            Message::Got { client: client as u64, version, latest: self.latest[item] }
        };
        let awaited: Vec<usize> = (0..ITEMS).filter(|item| awaited >> item & 1 == 1).collect();
        let of_client = |client| awaited.iter().map(move |&item| got(client, item));
        tables.messages = (1..=readers).flat_map(of_client).collect();
        assert_eq!(tables.messages.len() as u64, LOAD_CAPACITY);
        Block { what: format!("{}{how}", self.what), words: encode(&tables) }
    }
}

/// The items from one on, around.
fn items_from(from: u64, width: u64) -> Vec<u64> {
    (from..from + width).map(|item| item % ITEMS as u64).collect()
}

fn set_of(items: &[u64]) -> u64 {
    items.iter().fold(0, |set, item| set | 1 << item)
}

pub fn families() -> Vec<Family> {
    vec![
        family("numbers that share slots, and sets that are whole", wide()),
        family("sets of 64 items that are not all stored", missing()),
        family("512 stamps, each to be told whole", many()),
        family("all stamps in one slot", one_slot()),
        family("no walk to a stamp is longer", long_to_stamps()),
        family("no walk to a version is longer", long_to_versions()),
        family("drawn versions, numbers and sets", drawn()),
    ]
}

fn family(why: &'static str, made: Vec<Made>) -> Family {
    Family { why, blocks: made.into_iter().flat_map(Made::blocks).collect() }
}

/// Whole writes with numbers so far apart: accepted.
fn wide() -> Vec<Made> {
    let shape = |width: u64, apart: u64| {
        let what = format!("whole writes of {width} items, numbers {apart} apart");
        let mut made = Made::new(what);
        for place in 0..VERSION_CAPACITY / width {
            let items = items_from(place * width, width);
            for &item in &items {
                made.store(item, Stamp::new(1 + place * apart, 1), set_of(&items));
            }
        }
        made
    };
    let widths = [WIDEST_WRITE, ITEMS as u64];
    widths
        .into_iter()
        .flat_map(|width| [1, 28, 512, ALIKE].map(|apart| shape(width, apart)))
        .collect()
}

/// Of the writes that are named, each of 64 items, some are stored: 1, 8, 32, or all but one.
fn missing() -> Vec<Made> {
    let shape = |stored: u64, apart: u64| {
        let what = format!("sets of 64 items of which {stored} are stored, numbers {apart} apart");
        let mut made = Made::new(what);
        for place in 0..VERSION_CAPACITY / stored {
            for item in 0..stored {
                made.store((place + item) % 64, Stamp::new(1 + place * apart, 1), ALL);
            }
        }
        made
    };
    let stored = [1, 8, 32, 63];
    stored.into_iter().flat_map(|stored| [1, 28, ALIKE].map(|apart| shape(stored, apart))).collect()
}

/// 512 writes of one item, of items in turn or all of the last.
fn many() -> Vec<Made> {
    let shape = |of_the_last: bool, writers: u64| {
        let which = if of_the_last { "item 63" } else { "items in turn" };
        let by = if writers == 1 { "a client".to_owned() } else { format!("{writers} clients") };
        let mut made = Made::new(format!("512 writes of {which} by {by}"));
        for place in 0..VERSION_CAPACITY {
            let item = if of_the_last { 63 } else { place % 64 };
            made.store(item, Stamp::new(1 + place / writers, 1 + place % writers), 1 << item);
        }
        made
    };
    [(false, 1), (false, 8), (true, 1), (true, 8)].map(|(last, by)| shape(last, by)).into()
}

/// So many stamps of the first client that have one slot, with numbers from there on.
fn of_one_slot(count: usize, from: u64) -> Vec<Stamp> {
    let word = |number: u64| number * 16 + 1;
    let slot = slot_of(word(from));
    let numbers = (from..).filter(|&number| slot_of(word(number)) == slot);
    numbers.take(count).map(|number| Stamp::new(number, 1)).collect()
}

fn one_slot() -> Vec<Made> {
    let shape = |count: usize| {
        let mut made = Made::new(format!("{count} writes of one item whose stamps have one slot"));
        for (place, stamp) in of_one_slot(count, 1).into_iter().enumerate() {
            let item = place as u64 % 64;
            made.store(item, stamp, 1 << item);
        }
        made
    };
    [64, 128, 256, 512].map(shape).into()
}

/// Stamps with one slot and their lowest bits alike, and of each all that differ in their highest
/// four bits alone: those with the longest walks are named, the others stand in their way.
fn long_to_stamps() -> Vec<Made> {
    let shape = |count: usize, alike: u32| {
        let stamps = alike_in_low_bits(count, alike);
        named_by_walks(format!("{count} writes of one item, {alike} low bits alike"), &stamps)
    };
    let counts = [128, 256, VERSIONS];
    counts.into_iter().flat_map(|count| [12, 16, 20].map(|alike| shape(count, alike))).collect()
}

/// So many stamps with one slot that are alike in that many of their lowest bits, or where there
/// are too few in the most that there can be.
fn alike_in_low_bits(count: usize, mut alike: u32) -> Vec<u64> {
    let low = 0x51;
    let slot = slot_of(low);
    let mut found = Vec::new();
    while found.len() < count {
        let halves = (low..1 << 32).step_by(1 << alike).filter(|&half| slot_of(half) == slot);
        for half in halves {
            let words = (0..16).map(|high| half + (high << 32));
            for word in words {
                if found.len() < count && !found.contains(&word) {
                    found.push(word);
                }
            }
            if found.len() == count {
                break;
            }
        }
        alike -= 2;
    }
    found
}

/// A write of one item for each stamp, in this order; the 128 with the longest walks are named, two
/// for each item.
fn named_by_walks(what: String, stamps: &[u64]) -> Made {
    let mut walks = Walks::default();
    let mut by_length: Vec<(usize, usize)> =
        stamps.iter().enumerate().map(|(place, &stamp)| (walks.add(stamp), place)).collect();
    by_length.sort_unstable_by(|one, other| other.cmp(one));
    let mut items = vec![0; stamps.len()];
    for (rank, (_, place)) in by_length.iter().enumerate() {
        items[*place] = rank as u64 % 64;
    }
    let mut made = Made::new(what);
    for (&word, &item) in stamps.iter().zip(&items) {
        made.versions.push(Version { item, value: item, stamp: stamp_of(word), set: 1 << item });
    }
    for (rank, (_, place)) in by_length.iter().enumerate().take(2 * ITEMS).rev() {
        made.name(rank % ITEMS, Entry::new(stamp_of(stamps[*place]), 1 << (rank % ITEMS)));
    }
    made
}

fn stamp_of(word: u64) -> Stamp {
    Stamp::new(word / 16, word % 16)
}

/// Versions of one item whose keys are alike in their low 32 bits. The stamps' own walks are short
/// where they are in the order of their numbers, and long where those that are alike in their low
/// 32 bits follow each other. Damaged, since other items name them.
fn long_to_versions() -> Vec<Made> {
    let in_order: fn(u64) -> u64 = |place| place;
    let by_sixteen: fn(u64) -> u64 = |place| place / 16 + place % 16 * 64;
    let shape = |(order, number): (&str, fn(u64) -> u64), set: u64| {
        let mut made = Made::new(format!(
            "512 versions of item 63, numbers {ALIKE} apart{order}, sets of {} items",
            set.count_ones()
        ));
        for place in 0..VERSION_CAPACITY {
            let stamp = Stamp::new(1 + number(place) * ALIKE, 1);
            made.versions.push(Version { item: 63, value: 63, stamp, set });
        }
        let last: Vec<Stamp> = made.versions.iter().map(|version| version.stamp).rev().collect();
        for place in (0..2 * ITEMS).rev() {
            made.name(place % ITEMS, Entry::new(last[place], set));
        }
        made
    };
    let orders = [("", in_order), (" by sixteen", by_sixteen)];
    let sets = [1 << 63, 0b11 << 62, ALL];
    orders.into_iter().flat_map(|order| sets.map(|set| shape(order, set))).collect()
}

/// Versions, numbers and sets at random, from a few values or from many.
fn drawn() -> Vec<Made> {
    let mut random = Random::new(11);
    (0..16).map(|_| of_numbers(&mut random)).collect()
}

fn of_numbers(random: &mut Random) -> Made {
    let [shift, times, width] = [random.below(23), random.between(1, 50), random.between(1, 64)];
    let is_drawn = random.below(2) == 0;
    let numbers = if is_drawn { "drawn numbers" } else { "numbers in turn" };
    let mut made = Made::new(format!(
        "512 drawn versions, sets of {width} items and more, {numbers} times {times} and 2 to the \
         power {shift}"
    ));
    for stored in 0..VERSION_CAPACITY {
        let step = if is_drawn { random.below(512) } else { stored / width };
        let number = 1 + ((step * times) << shift) % GREATEST;
        let client = if is_drawn { random.between(1, 8) } else { 1 };
        let item = random.below(64);
        let set = set_of(&items_from(random.below(64), width)) | 1 << item;
        made.store(item, Stamp::new(number, client), set);
    }
    made
}
