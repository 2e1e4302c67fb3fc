//! Handing over (document 02, P6): "For each line its view becomes the later of the two entries;
//! the giving desk is unchanged"; and "how the first desk's view stands to the second's, by stamps
//! alone: same, behind (no entry later, one earlier), ahead, or neither".

use super::fault::Fault;
use super::tables::IDLE;
use super::Store;
use crate::answer::{AHEAD, BEHIND, NEITHER, SAME};
use crate::stamp::{Entry, Stamp};
use std::cmp::Ordering;

impl Store {
    /// Each of the receiver's entries becomes the later of itself and the giver's.
    pub(super) fn step_hand_over(&mut self, giver: u64, receiver: u64) {
        if self.has(Fault::NothingHandedOver) {
            return;
        }
        let given = *self.tables.view(giver);
        let held = *self.tables.view(receiver);
        for item in 0..self.tables.sizes.items {
            let [from, to] = [given[item as usize], held[item as usize]];
            match self.fault {
                Some(Fault::ReceiverReplaced) => {
                    self.tables.view_mut(receiver)[item as usize] = from;
                }
                Some(Fault::GiverRaised) => self.see(giver, item, to),
                Some(Fault::HandedStampsAlone) => {
                    self.see(receiver, item, Entry::new(from.stamp, to.set));
                }
                Some(Fault::TieTakesGivers) if from.stamp == to.stamp => {
                    self.tables.view_mut(receiver)[item as usize] = from;
                }
                _ => (),
            }
            self.see(receiver, item, from);
        }
        if self.has(Fault::CountHandedOver) {
            let count = self.tables.client(giver).count;
            let taking = self.tables.client_mut(receiver);
            taking.count = taking.count.max(count);
        }
    }

    /// How the first view stands to the second.
    pub(super) fn standing(&self, first: u64, second: u64) -> u64 {
        let [one, other] = [first, second].map(|client| self.tables.view(client));
        let pairs = one.iter().zip(other).take(self.tables.sizes.items as usize);
        let orders: Vec<Ordering> = pairs.map(|(one, other)| self.order(*one, *other)).collect();
        let [earlier, later] = [Ordering::Less, Ordering::Greater].map(|way| orders.contains(&way));
        match (earlier, later) {
            (false, false) => SAME,
            (true, false) if self.has(Fault::AheadIsBehind) => AHEAD,
            (true, false) => BEHIND,
            (false, true) if self.has(Fault::AheadIsBehind) => BEHIND,
            (false, true) => AHEAD,
            (true, true) if self.has(Fault::NeitherIsBehind) => BEHIND,
            (true, true) => NEITHER,
        }
    }

    /// How an entry stands to another, by their stamps.
    fn order(&self, one: Entry, other: Entry) -> Ordering {
        match self.fault {
            Some(Fault::ComparesNumbers) => one.stamp.number.cmp(&other.stamp.number),
            Some(Fault::ComparesSets) => (one.stamp, one.set).cmp(&(other.stamp, other.set)),
            Some(Fault::ComparesKnown) if Stamp::INITIAL == other.stamp => Ordering::Equal,
            _ if self.is_later(one.stamp, other.stamp) => Ordering::Greater,
            _ if self.is_later(other.stamp, one.stamp) => Ordering::Less,
            _ => Ordering::Equal,
        }
    }

    /// The refusal of a hand-over, unless a fault gives another.
    pub(super) fn spoilt_hand_over(
        &self,
        refusal: Option<u64>,
        giver: u64,
        receiver: u64,
    ) -> Option<u64> {
        let is_busy = |client| self.tables.client(client).mode != IDLE;
        match (self.fault, refusal) {
            (Some(Fault::IdleBeforeEqual), Some(18)) if is_busy(giver) => Some(4),
            (Some(Fault::EqualBeforeClient), Some(3)) if giver == receiver => Some(18),
            (Some(Fault::BusyGiver), Some(4)) if !is_busy(receiver) => None,
            (Some(Fault::BusyReceiver), Some(4)) if !is_busy(giver) => None,
            (Some(Fault::HandsOverToItself), Some(18)) if !is_busy(giver) => None,
            _ => refusal,
        }
    }

    /// The refusal of a comparison, unless a fault gives another.
    pub(super) fn spoilt_comparison(
        &self,
        refusal: Option<u64>,
        first: u64,
        second: u64,
    ) -> Option<u64> {
        let is_busy = |client| self.tables.client(client).mode != IDLE;
        match (self.fault, refusal) {
            (Some(Fault::ComparesIdle), None) if is_busy(first) || is_busy(second) => Some(4),
            (Some(Fault::ComparesTwo), None) if first == second => Some(18),
            _ => refusal,
        }
    }
}
