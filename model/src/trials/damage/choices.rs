//! Calls on a damaged block, mostly ones that meet the damage.

use crate::call::Call;
use crate::frames::log::MOST_BYTES;
use crate::layout::places;
use crate::random::Random;
use crate::set::size;
use crate::store::tables::{Tables, IDLE, MIXED, WRITE};

pub(super) struct Chooser<'a> {
    pub(super) random: &'a mut Random,
    /// Those of the block, or where it isn't valid those before the damage.
    pub(super) tables: &'a Tables,
    /// The place of a damaged word.
    pub(super) damaged: usize,
}

impl Chooser<'_> {
    pub(super) fn fresh(&mut self) -> Call {
        let mut size = |greatest| match self.random.below(8) {
            0 => greatest + 1,
            _ => self.random.between(1, greatest),
        };
        Call::Fresh { long_enough: true, clients: size(8), partitions: size(8), items: size(64) }
    }

    pub(super) fn read(&mut self) -> Call {
        let client = self.client();
        let set = self.set();
        Call::Read { client, set }
    }

    pub(super) fn fast_read(&mut self) -> Call {
        let client = self.client();
        let set = self.set();
        Call::FastRead { client, set }
    }

    pub(super) fn write(&mut self) -> Call {
        let client = self.client();
        let set = self.set();
        let length = match self.random.below(10) {
            0 => self.random.below(260),
            _ => 4 * size(set),
        };
        Call::Write { client, set, values: self.random.bytes(length as usize) }
    }

    pub(super) fn mixed(&mut self) -> Call {
        let client = self.client();
        let (read, write) = (self.set(), self.set());
        let length = match self.random.below(10) {
            0 => self.random.below(260),
            _ => 4 * size(write),
        };
        Call::Mixed { client, read, write, values: self.random.bytes(length as usize) }
    }

    /// The damaged message, or one of the damaged client's, or any.
    pub(super) fn deliver(&mut self) -> Call {
        let messages = &self.tables.messages;
        let any = self.random.below(messages.len() as u64 + 1);
        let client = places::client_at(self.damaged).map(|client| client as u64);
        let of_the_client: Vec<u64> = (0..messages.len() as u64)
            .filter(|place| client == Some(messages[*place as usize].client()))
            .collect();
        let place = match places::message_at(self.damaged) {
            Some(place) if self.random.percent(70) => place as u64,
            _ if !of_the_client.is_empty() => self.random.pick(&of_the_client),
            _ => any,
        };
        Call::Deliver { place }
    }

    /// With room for the frame, or a little less or more.
    pub(super) fn show(&mut self) -> Call {
        let client = self.client();
        let frame = match self.tables.has_client(client) {
            true => {
                let last = &self.tables.client(client).last;
                match last.kind {
                    WRITE => 14 + 4 * size(last.set),
                    MIXED => 22 + 9 * size(last.set) + 4 * size(last.write_set),
                    _ => 10 + 9 * size(last.set),
                }
            }
            false => 14,
        };
        let most = MOST_BYTES as u64;
        let room = self.random.pick(&[0, frame - 1, frame, frame, frame + 3, most]);
        Call::Show { client, output: self.random.bytes(room as usize) }
    }

    pub(super) fn hand_over(&mut self) -> Call {
        let [giver, receiver] = [(); 2].map(|()| self.client());
        Call::HandOver { giver, receiver }
    }

    pub(super) fn compare(&mut self) -> Call {
        let [first, second] = [(); 2].map(|()| self.client());
        Call::Compare { first, second }
    }

    /// Mostly the damaged client, or one that is idle.
    fn client(&mut self) -> u64 {
        let clients = self.tables.sizes.clients;
        let idle: Vec<u64> =
            (1..=clients).filter(|client| self.tables.client(*client).mode == IDLE).collect();
        match places::client_at(self.damaged) {
            Some(client) if self.random.percent(50) => client as u64,
            _ if !idle.is_empty() && self.random.percent(90) => self.random.pick(&idle),
            _ => self.random.below(clients + 2),
        }
    }

    /// Mostly a few items that exist.
    fn set(&mut self) -> u64 {
        let items = self.tables.sizes.items;
        match self.random.below(12) {
            0 => self.random.number(),
            1 => 0,
            2 => u64::MAX >> (64 - items),
            _ => 1 << self.random.below(items) | 1 << self.random.below(items),
        }
    }
}
