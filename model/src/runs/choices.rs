//! The next call of a random run.

use super::{Order, Runner, Sort};
use crate::answer::Answer;
use crate::call::Call;
use crate::frames::log::MOST_BYTES;
use crate::set::size;
use crate::store::message::Message;
use crate::store::tables::{IDLE, LOAD_CAPACITY, VERSION_CAPACITY, WIDEST_WRITE};

impl Runner<'_, '_> {
    pub(super) fn deliver_next(&mut self) {
        let messages = &self.run.store.tables.messages;
        let count = messages.len() as u64;
        if count == 0 {
            return;
        }
        let is_preferred = |message: &Message| match self.order {
            Order::CommitsLast => !matches!(message, Message::Commit { .. }),
            Order::PartitionLast(last) => {
                !matches!(message, Message::Commit { partition, .. } if *partition == last)
            }
            Order::ClientLast(client) => message.client() != client,
            _ => true,
        };
        let preferred: Vec<u64> =
            (0..count).filter(|place| is_preferred(&messages[*place as usize])).collect();
        let place = match self.order {
            Order::First => 0,
            Order::Last => count - 1,
            _ if preferred.is_empty() => self.random.below(count),
            _ => self.random.pick(&preferred),
        };
        self.call(Call::Deliver { place });
    }

    /// Delivers what is in flight; then nobody waits.
    pub(super) fn deliver_all(&mut self) {
        while !self.run.store.tables.messages.is_empty() {
            self.deliver_next();
            let last = self.run.events.last().expect("the delivery");
            assert_eq!(last.answer & 0xff, 0, "a delivery was refused");
        }
        let mut clients = self.run.store.tables.existing_clients();
        assert!(clients.all(|client| client.mode == IDLE));
    }

    pub(super) fn start(&mut self) {
        let idle = self.idle_clients();
        if idle.is_empty() {
            return self.deliver_next();
        }
        let client = self.random.pick(&idle);
        let set = self.some_set();
        let writes = if self.sort == Sort::Crowded { 70 } else { 50 };
        if self.random.percent(self.mixed) {
            let write = self.narrowed(set);
            let read = self.read_beside(write);
            let mixed = self.mixed(client, read, write);
            self.call_and_clear_when_full(mixed);
        } else if self.random.percent(writes) {
            let set = self.narrowed(set);
            let write = self.write(client, set);
            self.call_and_clear_when_full(write);
        } else if self.random.percent(self.fast_reads) {
            self.call(Call::FastRead { client, set });
        } else {
            self.call(Call::Read { client, set });
        }
    }

    fn call_and_clear_when_full(&mut self, write: Call) {
        let answer = self.call(write.clone());
        if answer == Answer::Refused(9) && self.clears_when_full {
            self.call(Call::Clear);
            self.call(write);
        }
    }

    /// Mostly between two clients that are idle.
    pub(super) fn hand_over(&mut self) {
        let mut clients: Vec<u64> = (1..=self.sizes.clients).collect();
        if self.random.percent(80) {
            clients = self.idle_clients();
        }
        if clients.len() < 2 {
            return;
        }
        let giver = clients.swap_remove(self.random.place(clients.len()));
        let receiver = self.random.pick(&clients);
        self.call(Call::HandOver { giver, receiver });
    }

    pub(super) fn compare(&mut self) {
        let [first, second] = [(); 2].map(|()| self.random.between(1, self.sizes.clients));
        self.call(Call::Compare { first, second });
    }

    fn idle_clients(&self) -> Vec<u64> {
        let tables = &self.run.store.tables;
        (1..=self.sizes.clients).filter(|client| tables.client(*client).mode == IDLE).collect()
    }

    fn write(&mut self, client: u64, set: u64) -> Call {
        let values = self.random.bytes(4 * size(set) as usize);
        Call::Write { client, set, values }
    }

    fn mixed(&mut self, client: u64, read: u64, write: u64) -> Call {
        let values = self.random.bytes(4 * size(write) as usize);
        Call::Mixed { client, read, write, values }
    }

    /// The set without so many of its items, at random, that a write may have it.
    fn narrowed(&mut self, mut set: u64) -> u64 {
        while size(set) > WIDEST_WRITE {
            set &= !(1 << self.random.below(64));
        }
        set
    }

    /// A nonempty set of existing items; in a crowded run often one that just fits.
    fn some_set(&mut self) -> u64 {
        let all = u64::MAX >> (64 - self.sizes.items);
        let tables = &self.run.store.tables;
        let room = LOAD_CAPACITY - tables.load();
        let versions = VERSION_CAPACITY - tables.versions_and_prepares();
        let fitting = room.min(versions).min(self.sizes.items);
        if self.sort == Sort::Crowded && fitting > 0 && self.random.percent(60) {
            return u64::MAX >> (64 - fitting);
        }
        let chosen = match self.random.below(4) {
            0 => all,
            1 => self.random.number() & self.random.number() & all,
            _ => self.random.number() & all,
        };
        if chosen == 0 {
            1 << self.random.below(self.sizes.items)
        } else {
            chosen
        }
    }

    /// A nonempty set of existing items to read beside a write; where there is no room for both,
    /// mostly one that just fits, if any does.
    fn read_beside(&mut self, write: u64) -> u64 {
        let mut read = self.some_set();
        let room = LOAD_CAPACITY - self.run.store.tables.load();
        let is_over = |read: u64| size(read) + size(write) > room;
        if is_over(read) && self.random.percent(70) {
            while is_over(read) && size(read) > 1 {
                read &= read - 1;
            }
        }
        read
    }

    /// A showing, often with just room enough or a byte less.
    pub(super) fn show_again(&mut self) {
        let client = self.random.between(1, self.sizes.clients);
        let frame = match self.run.store.show(client, &mut [0; MOST_BYTES]) {
            Answer::Shown { length } => length as usize,
            _ => 0,
        };
        let room = self.random.pick(&[0, frame.saturating_sub(1), frame, frame + 1, MOST_BYTES]);
        let output = self.random.bytes(room);
        self.call(Call::Show { client, output });
    }

    /// A call that is refused, or would be if some client's state were another.
    pub(super) fn call_amiss(&mut self) {
        let client = self.random.between(1, self.sizes.clients);
        let beyond = self.sizes.clients + 1;
        let nobody = self.random.pick(&[0, beyond, 256 + client, 1 << 63, u64::MAX]);
        let set = self.some_set();
        let past_the_end = self.run.store.tables.messages.len() as u64;
        let call = match self.random.below(26) {
            0 => Call::Read { client: nobody, set },
            1 => Call::Show { client: nobody, output: vec![1; MOST_BYTES] },
            17 => Call::FastRead { client: nobody, set },
            18 => Call::FastRead { client, set },
            19 => Call::FastRead { client, set: 0 },
            20 if self.sizes.items < 64 => {
                Call::FastRead { client, set: set | 1 << self.sizes.items }
            }
            21 => self.mixed(nobody, set, 1),
            22 => self.mixed(client, set, set),
            23 => {
                let (read, write) = self.random.pick(&[(0, 1), (1, 0), (0, 0)]);
                self.mixed(client, read, write)
            }
            24 if self.sizes.items < 64 => {
                let past = 1 << self.sizes.items;
                let (read, write) = self.random.pick(&[(past, 1), (1, past), (set | past, past)]);
                self.mixed(client, read, write)
            }
            25 => {
                let values = vec![7; self.random.below(20) as usize];
                Call::Mixed { client, read: set, write: 1, values }
            }
            2 => Call::Read { client, set },
            3 => Call::Read { client, set: 0 },
            4 if self.sizes.items < 64 => Call::Read { client, set: set | 1 << self.sizes.items },
            5 | 4 => Call::Write { client, set, values: vec![7; self.random.below(300) as usize] },
            6 => Call::Deliver { place: past_the_end },
            7 => Call::Deliver { place: u64::MAX },
            8 => Call::Show { client, output: vec![2; self.random.below(20) as usize] },
            9 | 16 => {
                let wider = set | self.some_set();
                self.write(client, wider)
            }
            10 => {
                Call::Fresh { long_enough: true, clients: 1, partitions: (1 << 32) + 1, items: 1 }
            }
            11 => Call::Fresh { long_enough: false, clients: 1, partitions: 1, items: 1 },
            12 => Call::HandOver { giver: client, receiver: nobody },
            13 => Call::HandOver { giver: nobody, receiver: self.random.pick(&[client, nobody]) },
            14 => Call::HandOver { giver: client, receiver: client },
            _ => {
                let (first, second) =
                    self.random.pick(&[(client, nobody), (nobody, client), (nobody, nobody)]);
                Call::Compare { first, second }
            }
        };
        self.call(call);
    }
}
