//! Fast reads (document 02, P7): "RAMP-Fast reading as in Algorithm 1 of source document 002, from
//! the same cabinets". The first part asks for each item's latest committed version; "lines found
//! older than a sibling shows are fetched by stamp in a second set of gets, ascending".

use super::fault::Fault;
use super::message::{Message, Parts, FIRST_GET, FIRST_REPLY, GOT};
use super::tables::{
    Client, Ended, Version, FIRST_PART, ITEMS, MIXING, READING, SECOND_PART, WRITING,
};
use super::Store;
use crate::answer::NONE_ENDED;
use crate::set::{has, items, without};
use crate::stamp::{Entry, Stamp};

impl Store {
    /// One first get per item, ascending. Nothing is asked for by its stamp yet.
    pub(super) fn step_start_fast_read(&mut self, client: u64, set: u64) {
        if self.has(Fault::FastIsOrdinary) {
            return self.step_start_read(client, set);
        }
        let gets = items(set).map(|item| Message::FirstGet { client, item });
        self.tables.messages.extend(gets);
        let record = self.tables.client_mut(client);
        *record = Client {
            mode: FIRST_PART,
            set,
            awaited: set,
            stamps: [Stamp::INITIAL; ITEMS],
            values: [0; ITEMS],
            firsts: [Entry::INITIAL; ITEMS],
            ..*record
        };
    }

    /// Appends a first reply with the version of the item's latest stamp, and that latest.
    pub(super) fn deliver_first_get(&mut self, client: u64, item: u64) -> u64 {
        let latest = self.tables.latest[item as usize];
        let version = self.version_of(item, latest.stamp);
        let version = self.spoilt_first(client, version);
        self.tables.messages.push(Message::FirstReply { client, version, latest });
        NONE_ENDED
    }

    /// The version that a first get is answered with, unless a fault gives another.
    fn spoilt_first(&self, client: u64, version: Version) -> Version {
        let item = version.item;
        let initial = self.version_of(item, Stamp::INITIAL);
        match self.fault {
            Some(Fault::NewestFirst) => self.newest_version(version),
            Some(Fault::InitialFirst) => initial,
            Some(Fault::OlderFirst) => self.newest_before(initial, version.stamp),
            Some(Fault::FirstFromTheView) => {
                let set = self.tables.client(client).set;
                self.version_of(item, self.stamp_to_ask_for(client, set, item))
            }
            _ => version,
        }
    }

    /// Keeps the version and sees it after the latest; with the last one the first part is over.
    pub(super) fn deliver_first_reply(
        &mut self,
        client: u64,
        version: Version,
        latest: Entry,
    ) -> u64 {
        let item = version.item;
        if !self.has(Fault::FirstRepliesUnseen) {
            self.see(client, item, latest);
            self.see_version(client, version);
        }
        let set = if self.has(Fault::LatestsSetKept) { latest.set } else { version.set };
        let record = self.tables.client_mut(client);
        record.values[item as usize] = version.value;
        record.firsts[item as usize] = Entry::new(version.stamp, set);
        record.awaited = without(record.awaited, item);
        if record.awaited != 0 {
            return self.outcome_before_the_end();
        }
        self.end_first_part(client, item)
    }

    /// Items that a sibling shows to be older than they should be are awaited again, and a get of
    /// each joins, ascending; where there are none, the read ends. Which item replied last counts
    /// for a fault alone.
    fn end_first_part(&mut self, client: u64, last: u64) -> u64 {
        let record = *self.tables.client(client);
        let set = match self.fault {
            Some(Fault::OutsideTheSetAgain) => u64::MAX >> (ITEMS as u64 - self.tables.sizes.items),
            _ => record.set,
        };
        let mut stamps = record.stamps;
        let mut again = 0;
        for item in items(set) {
            let own = record.firsts[item as usize].stamp;
            let freshest = self.freshest(client, item);
            stamps[item as usize] = match self.fault {
                Some(Fault::OwnLatestAgain) => own,
                _ => freshest,
            };
            if self.is_later(freshest, own) || self.has(Fault::EveryItemAgain) {
                again |= 1 << item;
                if self.has(Fault::SecondStampsOfTheView) {
                    stamps[item as usize] = self.stamp_to_ask_for(client, set, item);
                }
            }
        }
        if self.has(Fault::EndsWithTheFirstPart) {
            stamps = record.firsts.map(|first| first.stamp);
            again = 0;
        }
        let record = self.tables.client_mut(client);
        *record = Client { mode: SECOND_PART, awaited: again, stamps, ..*record };
        if again == 0 {
            return self.end_read(client);
        }
        let get = |item| Message::Get { client, item, stamp: stamps[item as usize] };
        let mut gets: Vec<Message> = items(again).map(get).collect();
        match self.fault {
            Some(Fault::SecondGetsDescending) => gets.reverse(),
            Some(Fault::SecondGetsByReply) => {
                gets.sort_by_key(|get| get.parts().item == Some(last));
            }
            Some(Fault::SecondGetsInTurn) => gets.truncate(1),
            _ => (),
        }
        self.tables.messages.extend(gets);
        NONE_ENDED
    }

    /// The latest stamp among the item's own first reply and all first replies whose version's set
    /// contains it.
    fn freshest(&self, client: u64, item: u64) -> Stamp {
        if self.has(Fault::SiblingsOfTheView) {
            return self.stamp_to_ask_for(client, self.tables.client(client).set, item);
        }
        let record = self.tables.client(client);
        let shown = items(record.set).map(|sibling| record.firsts[sibling as usize]);
        let siblings = shown.filter(|first| has(first.set, item)).map(|first| first.stamp);
        self.latest(record.firsts[item as usize].stamp, siblings)
    }

    /// For faults alone: what a got of the second part does besides.
    pub(super) fn spoil_second_got(&mut self, client: u64, version: Version, latest: Entry) {
        let Version { item, stamp, set, .. } = version;
        let record = self.tables.client_mut(client);
        match self.fault {
            Some(Fault::SecondGotsKept) => record.firsts[item as usize] = Entry::new(stamp, set),
            Some(Fault::LatestFetchedToo) if latest.stamp > stamp => {
                let stamp = latest.stamp;
                record.stamps[item as usize] = stamp;
                record.awaited |= 1 << item;
                self.tables.messages.push(Message::Get { client, item, stamp });
            }
            Some(Fault::SecondGetsInTurn) => {
                if let Some(item) = items(record.awaited).next() {
                    let stamp = record.stamps[item as usize];
                    self.tables.messages.push(Message::Get { client, item, stamp });
                }
            }
            Some(Fault::ThirdPart) => {
                let come = items(set & record.set & !record.awaited);
                let is_older = |item: &u64| record.stamps[*item as usize] < stamp;
                for item in come.filter(is_older).collect::<Vec<u64>>() {
                    let record = self.tables.client_mut(client);
                    record.stamps[item as usize] = stamp;
                    record.awaited |= 1 << item;
                    self.tables.messages.push(Message::Get { client, item, stamp });
                }
            }
            _ => (),
        }
    }

    /// For faults alone: of some items the first reply is shown.
    pub(super) fn spoil_shown(&self, client: u64, ended: &mut Ended) {
        let record = self.tables.client(client);
        let spoilt: Vec<u64> = match self.fault {
            Some(Fault::FirstReplyShown) => items(record.set).collect(),
            Some(Fault::OlderReplyShown) => self.older_unfractured(client).into_iter().collect(),
            _ => return,
        };
        for item in spoilt {
            let first = self.version_of(item, record.firsts[item as usize].stamp);
            ended.stamps[item as usize] = first.stamp;
            ended.values[item as usize] = first.value;
        }
    }

    /// An item fetched again, if there is one, whose first reply could be shown unfractured: no
    /// sibling's last reply is of a later write that has the item too.
    fn older_unfractured(&self, client: u64) -> Option<u64> {
        let record = self.tables.client(client);
        let first = |item: u64| record.firsts[item as usize].stamp;
        let last = |item: u64| self.version_of(item, record.stamps[item as usize]);
        let is_unfractured = |item: &u64| {
            let mut siblings = items(without(record.set, *item)).map(last);
            !siblings.any(|shown| has(shown.set, *item) && shown.stamp > first(*item))
        };
        let mut again = items(record.set).filter(|item| last(*item).stamp > first(*item));
        again.find(is_unfractured)
    }

    /// The refusal of a delivery, unless a fault gives another.
    pub(super) fn spoilt_delivery(&self, refusal: Option<u64>, place: u64) -> Option<u64> {
        let message = match refusal {
            None | Some(11 | 12) => self.tables.messages[place as usize],
            _ => return refusal,
        };
        let record = self.tables.client(message.client());
        let Parts { kind, item, stamp, .. } = message.parts();
        let awaits =
            |mode| record.mode == mode && item.is_some_and(|item| has(record.awaited, item));
        match (self.fault, kind) {
            (Some(Fault::FirstReplyByStamp), FIRST_REPLY) if stamp != Some(Stamp::INITIAL) => {
                Some(11)
            }
            (Some(Fault::FirstReplyNotAwaited), FIRST_REPLY) if record.mode == FIRST_PART => None,
            (Some(Fault::FirstReplyInTheSecondPart), FIRST_REPLY) if awaits(SECOND_PART) => None,
            (Some(Fault::FirstReplyToAnyRead), FIRST_REPLY) if awaits(READING) => None,
            (Some(Fault::FirstReplyToAWrite), FIRST_REPLY) if awaits(WRITING) => None,
            (Some(Fault::FirstReplyToAMixed), FIRST_REPLY) if awaits(MIXING) => None,
            (Some(Fault::GotInTheFirstPart), GOT) if awaits(FIRST_PART) => None,
            (Some(Fault::UnstoredLatestAnswered), FIRST_GET) => None,
            _ => refusal,
        }
    }
}
