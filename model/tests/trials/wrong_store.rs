//! Stores on blocks that are wrong in one way.

use koolvent_model::block::{Calls, Modelled};
use koolvent_model::frames::log::MOST_BYTES;
use koolvent_model::layout::places::{self, Scalar, NEEDED};
use koolvent_model::layout::{decode, fields};
use koolvent_model::set::items;
use koolvent_model::store::tables::{
    Client, FIRST_PART, IDLE, LOAD_CAPACITY, MIXING, READING, SECOND_PART, WRITING,
};
use std::ops::Range;

const MODEL: Modelled = Modelled { fault: None };

/// A store that is wrong in what it does to the words, or takes numbers too narrowly.
#[derive(Clone, Copy, Debug, PartialEq, Eq)]
pub enum Wrong {
    /// A refusal leaves a mark in a word that is no field.
    MarksARefusal,
    /// A fresh leaves an old word that is no field of fresh tables.
    FreshLeavesAWord,
    /// A fresh clears the words past the needed length.
    FreshPastTheEnd,
    /// A message that moves up has 0 in the words that its kind doesn't use.
    MovesFieldsAlone,
    /// A message that joins leaves the words that its kind doesn't use.
    JoinsFieldsAlone,
    /// A delivery clears the words of the place that the last message left.
    ClearsThePlaceLeft,
    /// The end of a transaction clears the stamps asked for.
    ClearsAskedAtAnEnd,
    /// The end of a transaction leaves the client its set.
    KeepsTheSetAtAnEnd,
    /// The end of a transaction leaves the values that were there.
    LeavesValuesAtAnEnd,
    /// Clients are taken modulo 256.
    NarrowClients,
    /// Places are taken modulo 65,536.
    NarrowPlaces,
    /// Sizes are taken modulo 2 to the power 32.
    NarrowSizes,
    /// Value bytes past those of the set are let pass.
    TooManyValues,
    /// A block of one word less than needed is taken.
    OneWordShort,
    /// A showing writes a byte past the frame.
    ShowsPastTheFrame,
    /// A showing without room writes what fits.
    ShowsWhatFits,
    /// A clearing clears the words of the places that it frees.
    ClearsFreedPlaces,
    /// A clearing spares what is named in the view or latest of a client or item that doesn't
    /// exist.
    AbsentEntriesSpare,
    /// A clearing spares what the words of first replies name that a fast read still awaits.
    FirstsToComeSpare,
    /// A clearing spares what the words of first replies name for the items of an ordinary read.
    FirstsOfAReadSpare,
    /// A clearing spares what the words of first replies name for the items of an ended read.
    FirstsOfAnEndedReadSpare,
    /// A hand-over gives the receiver the giver's words of items that don't exist too.
    HandsOverAbsentItems,
    /// A comparison looks at items that don't exist too.
    ComparesAbsentItems,
    /// The start of a fast read clears the words of the first replies to come.
    ClearsFirstsAtAStart,
    /// The end of a fast read clears its first replies.
    ClearsFirstsAtAnEnd,
    /// The second part of a fast read asks for nothing of items that it doesn't fetch again.
    AsksAgainAlone,
    /// The first reply that ends a read isn't kept.
    LastFirstReplyUnkept,
    /// A mixed start leaves the halves that it doesn't use.
    MixesHalvesAlone,
    /// A mixed transaction has its answers in the high halves, and what it writes in the low ones.
    HalvesSwapped,
    /// A got to a mixed transaction clears what is written there.
    GotTakesTheWord,
    /// The end of a mixed transaction clears its write part's words.
    ClearsWriteAtAnEnd,
    /// The end of a mixed transaction keeps of its words the halves that it shows.
    KeepsShownHalves,
    /// A check looks at the views and latest of clients and items that don't exist too.
    ChecksAbsentEntries,
    /// A check takes the first replies of a client that has no fast read for kept ones.
    ChecksOldFirstReplies,
    /// A check looks at a message past the last.
    ChecksOneMessageMore,
    /// A check looks at a version past the last.
    ChecksOneVersionMore,
}

impl Wrong {
    /// Makes the model's call, and then what is wrong with it.
    fn made(self, block: &mut [u64], call: impl FnOnce(&mut [u64]) -> u64) -> u64 {
        let before = block.to_vec();
        if self == Wrong::OneWordShort && block.len() == NEEDED - 1 {
            let mut longer = [&before[..], &[0]].concat();
            let answer = call(&mut longer);
            block.copy_from_slice(&longer[..NEEDED - 1]);
            return answer;
        }
        let answer = call(block);
        if answer & 0xff == 0 {
            self.spoil_messages(&before, block);
            self.spoil_ends(&before, block);
        } else if self == Wrong::MarksARefusal && block.len() > places::UNUSED.end {
            block[places::UNUSED.start] = 1;
        }
        answer
    }

    fn spoil_messages(self, before: &[u64], after: &mut [u64]) {
        let was = before[places::MESSAGES].min(LOAD_CAPACITY);
        let is = after[places::MESSAGES];
        let words = |first: u64, end: u64| {
            places::message(first as usize)..places::message(end.max(first) as usize)
        };
        match self {
            Wrong::MovesFieldsAlone if is < was => {
                for place in unused(after, words(0, is)) {
                    after[place] = 0;
                }
            }
            Wrong::JoinsFieldsAlone => {
                for place in unused(after, words(was, is)) {
                    after[place] = before[place];
                }
            }
            Wrong::ClearsThePlaceLeft => after[words(is, was)].fill(0),
            _ => (),
        }
    }

    fn spoil_ends(self, before: &[u64], after: &mut [u64]) {
        for client in 1..=after[places::CLIENTS] as usize {
            let mode = places::scalar(client, Scalar::Mode);
            if before[mode] == IDLE || after[mode] != IDLE {
                continue;
            }
            let set = places::scalar(client, Scalar::Set);
            let values = places::value(client, 0)..places::value(client, 0) + 64;
            let firsts = places::first(client, 0)..places::first(client, 64);
            match self {
                Wrong::ClearsAskedAtAnEnd => after[places::asked(client, 0)..][..64].fill(0),
                Wrong::KeepsTheSetAtAnEnd => after[set] = before[set],
                Wrong::LeavesValuesAtAnEnd => {
                    after[values.clone()].copy_from_slice(&before[values]);
                }
                Wrong::ClearsFirstsAtAnEnd if before[mode] > WRITING => after[firsts].fill(0),
                Wrong::ClearsWriteAtAnEnd if before[mode] == MIXING => {
                    after[places::scalar(client, Scalar::WriteSet)] = 0;
                    after[places::scalar(client, Scalar::WriteAwaited)] = 0;
                }
                Wrong::KeepsShownHalves if before[mode] == MIXING => {
                    let tables = decode(after).expect("an accepted call left tables");
                    for item in 0..64 {
                        let place = places::last_value(client, item);
                        let field = fields(&tables).into_iter().find(|of| of.place == place);
                        after[place] &= field.map_or(u64::MAX, |field| field.mask);
                    }
                }
                Wrong::LastFirstReplyUnkept => {
                    after[firsts.clone()].copy_from_slice(&before[firsts]);
                }
                _ => (),
            }
        }
    }

    fn spoil_mixed_start(self, before: &[u64], after: &mut [u64], client: usize, items: u64) {
        let values: Vec<usize> = (0..64)
            .filter(|item| items >> item & 1 == 1)
            .map(|item| places::value(client, item))
            .collect();
        match self {
            Wrong::MixesHalvesAlone => {
                let fields = fields(&decode(after).expect("an accepted call left tables"));
                for field in fields.iter().filter(|field| values.contains(&field.place)) {
                    after[field.place] |= before[field.place] & !field.mask;
                }
            }
            Wrong::HalvesSwapped => {
                for place in values {
                    after[place] = after[place].rotate_left(32);
                }
            }
            _ => (),
        }
    }

    /// The message at the place was a got to a mixed transaction.
    fn spoil_mixed_got(self, before: &[u64], after: &mut [u64], place: usize) {
        let message = places::message(place);
        let [kind, client, item] = [0, 1, 2].map(|word| before[message + word] as usize);
        let is_mixed = kind == 5 && before[places::scalar(client, Scalar::Mode)] == MIXING;
        if is_mixed && self == Wrong::GotTakesTheWord {
            after[places::value(client, item)] &= u64::from(u32::MAX);
        }
    }

    /// A clearing that sets the words of the places freed to 0, or that also leaves the versions
    /// whose stamp lies in a word that is no field.
    fn spoil_clearing(self, before: &[u64], after: &mut [u64]) {
        let [was, is] = [before, &*after].map(|words| words[places::VERSIONS] as usize);
        let sparing = match self {
            Wrong::ClearsFreedPlaces => {
                return after[places::version(is)..places::version(was)].fill(0);
            }
            Wrong::AbsentEntriesSpare => absent_entries(before),
            Wrong::FirstsToComeSpare => firsts(before, FIRST_PART, |client| client.awaited),
            Wrong::FirstsOfAReadSpare => firsts(before, READING, |client| client.set),
            Wrong::FirstsOfAnEndedReadSpare => firsts(before, IDLE, |client| client.last.set),
            _ => return,
        };
        let stamp = |words: &[u64], place| words[places::version(place) + 2];
        let mut stamps: Vec<u64> = (0..is).map(|place| stamp(after, place)).collect();
        stamps.extend(sparing.iter().map(|place| before[*place]));
        let mut kept = 0;
        for place in (0..was).filter(|place| stamps.contains(&stamp(before, *place))) {
            let version = &before[places::version(place)..][..4];
            after[places::version(kept)..][..4].copy_from_slice(version);
            kept += 1;
        }
        after[places::VERSIONS] = kept as u64;
    }

    /// Whether a check that looks at words which are no field finds fault with an accepted block.
    fn finds_fault(self, block: &[u64]) -> bool {
        let stored: Vec<u64> = (0..block[places::VERSIONS] as usize)
            .map(|place| block[places::version(place) + 2])
            .collect();
        let is_odd = |place: usize| block[place] != 0 && !stored.contains(&block[place]);
        let clients = 1..=block[places::CLIENTS] as usize;
        match self {
            Wrong::ChecksAbsentEntries => absent_entries(block).into_iter().any(is_odd),
            Wrong::ChecksOldFirstReplies => clients
                .filter(|client| block[places::scalar(*client, Scalar::Mode)] <= WRITING)
                .any(|client| (0..64).any(|item| is_odd(places::first(client, item)))),
            Wrong::ChecksOneMessageMore => {
                let messages = block[places::MESSAGES];
                messages < LOAD_CAPACITY && block[places::message(messages as usize)] != 0
            }
            Wrong::ChecksOneVersionMore => {
                let versions = stored.len();
                versions < 512 && is_odd(places::version(versions) + 2)
            }
            _ => false,
        }
    }

    fn client(self, client: u64) -> u64 {
        match self {
            Wrong::NarrowClients => client % 256,
            _ => client,
        }
    }
}

/// The words among these that are no field of the block.
fn unused(block: &[u64], words: Range<usize>) -> Vec<usize> {
    let tables = decode(block).expect("an accepted call left tables");
    let mut is_field = vec![false; block.len()];
    for field in fields(&tables) {
        is_field[field.place] = true;
    }
    words.filter(|place| !is_field[*place]).collect()
}

/// Where a second part has begun, the items that it doesn't fetch again are asked for as before.
fn ask_again_alone(before: &[u64], after: &mut [u64]) {
    for client in 1..=after[places::CLIENTS] as usize {
        let [mode, awaited] =
            [Scalar::Mode, Scalar::Awaited].map(|scalar| places::scalar(client, scalar));
        if before[mode] == FIRST_PART && after[mode] == SECOND_PART {
            let again = after[awaited];
            for item in (0..64).filter(|item| again >> item & 1 == 0) {
                let asked = places::asked(client, item);
                after[asked] = before[asked];
            }
        }
    }
}

/// Where views and latest of clients and items lie that the block doesn't have.
fn absent_entries(block: &[u64]) -> Vec<usize> {
    let [clients, items] = [places::CLIENTS, places::ITEMS].map(|place| block[place] as usize);
    let latest = (items..64).map(places::latest);
    let views = (1..=8).flat_map(|client| (0..64).map(move |item| (client, item)));
    let views = views.filter(|(client, item)| *client > clients || *item >= items);
    latest.chain(views.map(|(client, item)| places::view(client, item))).collect()
}

/// Where the words of first replies lie of these items of clients in this mode.
fn firsts(block: &[u64], mode: u64, of: fn(&Client) -> u64) -> Vec<usize> {
    let tables = decode(block).expect("an accepted call was made on tables");
    let clients = (1..=tables.sizes.clients).filter(|client| tables.client(*client).mode == mode);
    let place = |client: u64, item: u64| places::first(client as usize, item as usize);
    let of_client = |client| items(of(tables.client(client))).map(move |item| place(client, item));
    clients.flat_map(of_client).collect()
}

/// Where the view of a client lies for items that the block doesn't have.
fn absent_items(block: &[u64], client: u64) -> Range<usize> {
    let items = block[places::ITEMS] as usize;
    places::view(client as usize, items)..places::view(client as usize, 64)
}

impl Calls for Wrong {
    fn fresh(&self, block: &mut [u64], clients: u64, partitions: u64, items: u64) -> u64 {
        let size = |size: u64| match self {
            Wrong::NarrowSizes => size % (1 << 32),
            _ => size,
        };
        let before = block.to_vec();
        let stored = places::version(9);
        let answer = self
            .made(block, |block| MODEL.fresh(block, size(clients), size(partitions), size(items)));
        match self {
            Wrong::FreshLeavesAWord if answer == 0 => block[stored] = before[stored],
            Wrong::FreshPastTheEnd if answer == 0 => block[NEEDED..].fill(0),
            _ => (),
        }
        answer
    }

    fn start_read(&self, block: &mut [u64], client: u64, set: u64) -> u64 {
        let client = self.client(client);
        self.made(block, |block| MODEL.start_read(block, client, set))
    }

    fn start_fast_read(&self, block: &mut [u64], client: u64, set: u64) -> u64 {
        let client = self.client(client);
        let answer = self.made(block, |block| MODEL.start_fast_read(block, client, set));
        if *self == Wrong::ClearsFirstsAtAStart && answer & 0xff == 0 {
            block[places::first(client as usize, 0)..][..128].fill(0);
        }
        answer
    }

    fn start_write(&self, block: &mut [u64], client: u64, set: u64, values: &[u8]) -> u64 {
        let client = self.client(client);
        let right = 4 * set.count_ones() as usize;
        let values = match self {
            Wrong::TooManyValues => &values[..values.len().min(right)],
            _ => values,
        };
        self.made(block, |block| MODEL.start_write(block, client, set, values))
    }

    fn start_mixed(
        &self,
        block: &mut [u64],
        client: u64,
        read: u64,
        write: u64,
        values: &[u8],
    ) -> u64 {
        let client = self.client(client);
        let right = 4 * write.count_ones() as usize;
        let values = match self {
            Wrong::TooManyValues => &values[..values.len().min(right)],
            _ => values,
        };
        let before = block.to_vec();
        let answer =
            self.made(block, |block| MODEL.start_mixed(block, client, read, write, values));
        if answer & 0xff == 0 {
            self.spoil_mixed_start(&before, block, client as usize, read | write);
        }
        answer
    }

    fn deliver(&self, block: &mut [u64], place: u64) -> u64 {
        let place = match self {
            Wrong::NarrowPlaces => place % 65_536,
            _ => place,
        };
        let before = block.to_vec();
        let answer = self.made(block, |block| MODEL.deliver(block, place));
        if *self == Wrong::AsksAgainAlone && answer & 0xff == 0 {
            ask_again_alone(&before, block);
        }
        if answer & 0xff == 0 {
            self.spoil_mixed_got(&before, block, place as usize);
        }
        answer
    }

    fn show(&self, block: &[u64], client: u64, output: &mut [u8]) -> u64 {
        let answer = MODEL.show(block, self.client(client), output);
        let length = (answer >> 8) as usize;
        match self {
            Wrong::ShowsPastTheFrame if answer & 0xff == 0 && length < output.len() => {
                output[length] ^= 1;
            }
            Wrong::ShowsWhatFits if answer == 14 => {
                let mut whole = [0; MOST_BYTES];
                MODEL.show(block, client, &mut whole);
                let room = output.len();
                output.copy_from_slice(&whole[..room]);
            }
            _ => (),
        }
        answer
    }

    fn clear(&self, block: &mut [u64]) -> u64 {
        let before = block.to_vec();
        let answer = self.made(block, |block| MODEL.clear(block));
        if answer & 0xff == 0 {
            self.spoil_clearing(&before, block);
        }
        answer
    }

    fn hand_over(&self, block: &mut [u64], giver: u64, receiver: u64) -> u64 {
        let [giver, receiver] = [giver, receiver].map(|client| self.client(client));
        let answer = self.made(block, |block| MODEL.hand_over(block, giver, receiver));
        if *self == Wrong::HandsOverAbsentItems && answer == 0 {
            let [from, to] = [giver, receiver].map(|client| absent_items(block, client));
            block.copy_within(from, to.start);
        }
        answer
    }

    fn compare(&self, block: &[u64], first: u64, second: u64) -> u64 {
        let [first, second] = [first, second].map(|client| self.client(client));
        let answer = MODEL.compare(block, first, second);
        if *self == Wrong::ComparesAbsentItems && answer == 0 {
            let [one, other] = [first, second].map(|client| absent_items(block, client));
            return u64::from(block[one] != block[other]) << 8;
        }
        answer
    }

    fn check(&self, block: &[u64]) -> u64 {
        let mut longer = block.to_vec();
        if *self == Wrong::OneWordShort && block.len() == NEEDED - 1 {
            longer.push(0);
        }
        let answer = MODEL.check(&longer);
        if answer == 0 && self.finds_fault(block) {
            return 19;
        }
        answer
    }
}
