//! A clearing (document 02, P5): it "drops exactly those stored versions whose stamp occurs in no
//! view, no latest, no message and no write still under way, keeps the others in their order". Of
//! the first replies that have come it "spares their stamps until the read ends" (P7).

use super::fault::Fault;
use super::message::{Message, GET};
use super::tables::{Client, Version, MIXING, SECOND_PART, WRITING};
use super::Store;
use crate::set::{has, items};
use crate::stamp::Stamp;

impl Store {
    /// The versions go whose stamp occurs nowhere; the others stay in their order.
    pub(super) fn step_clear(&mut self) {
        let mut kept = self.tables.versions.clone();
        if self.has(Fault::LastIntoTheHole) {
            while let Some(hole) = kept.iter().position(|version| self.goes(version)) {
                kept.swap_remove(hole);
            }
        }
        kept.retain(|version| !self.goes(version));
        self.tables.versions = kept;
    }

    /// Whether the version's stamp is in no view and no latest, no message, no write under way and no
    /// first reply that a read under way keeps.
    fn goes(&self, version: &Version) -> bool {
        let tables = &self.tables;
        let mut entries = tables.entries();
        !entries.any(|(item, entry)| self.is_spared(version, entry.stamp, item == version.item))
            && !tables.messages.iter().any(|message| self.mentions(message, version))
            && !tables.existing_clients().any(|client| self.transaction_spares(client, version))
            && !tables.existing_clients().any(|client| self.keeps_first(client, version))
    }

    /// A stamp spares the versions that have it, whatever their item. That it stands at the
    /// version's own item counts for a fault alone.
    fn is_spared(&self, version: &Version, stamp: Stamp, is_at_item: bool) -> bool {
        match self.fault {
            Some(Fault::SparedByItem) => is_at_item && stamp == version.stamp,
            Some(Fault::SparedByNumber) => stamp.number == version.stamp.number,
            _ => stamp == version.stamp,
        }
    }

    /// Of a reply its version's stamp and its latest's count.
    fn mentions(&self, message: &Message, version: &Version) -> bool {
        let parts = message.parts();
        let partition = self.tables.partition_of(version.item);
        let is_at_item = parts.item == Some(version.item) || parts.partition == Some(partition);
        let spares = |stamp| self.is_spared(version, stamp, is_at_item);
        let stamp_spares = parts.stamp.is_some_and(spares);
        let latest_spares = parts.latest.is_some_and(|latest| spares(latest.stamp));
        match self.fault {
            Some(Fault::GetsAloneSpare) => parts.kind == GET && stamp_spares,
            Some(Fault::GotsLatestForgotten) => stamp_spares,
            _ => stamp_spares || latest_spares,
        }
    }

    /// A client's transaction spares where it is a write under way, alone or mixed; where it is a
    /// read, or has ended, with a fault alone.
    fn transaction_spares(&self, client: &Client, version: &Version) -> bool {
        if self.has(Fault::LastEndedSpares) && client.last_stamps().contains(&version.stamp) {
            return true;
        }
        let is_writing = client.mode == WRITING && !self.has(Fault::WriteUnderWayForgotten);
        let is_mixing = client.mode == MIXING;
        let is_at_item = has(client.write.set, version.item);
        let mut stamps = items(client.set).zip(client.running_stamps());
        is_mixing
            && !self.has(Fault::MixedForgotten)
            && self.is_spared(version, client.write.stamp, is_at_item)
            || (is_writing
                || self.has(Fault::AskedSpares)
                || is_mixing && self.has(Fault::MixedAskedSpares))
                && stamps.any(|(item, stamp)| self.is_spared(version, stamp, item == version.item))
    }

    /// A first reply that a client keeps spares its version.
    fn keeps_first(&self, client: &Client, version: &Version) -> bool {
        let is_second = client.mode == SECOND_PART;
        let spared = match self.fault {
            Some(Fault::FirstsForgotten) => 0,
            Some(Fault::FirstsSparedInTheFirstPart) if is_second => 0,
            Some(Fault::FirstsSparedIfAwaited) if is_second => client.awaited,
            Some(Fault::FirstsSparedUnlessAwaited) if is_second => client.set & !client.awaited,
            _ => client.first_replied(),
        };
        let first = |item: u64| client.firsts[item as usize].stamp;
        items(spared).any(|item| self.is_spared(version, first(item), item == version.item))
    }
}
