//! The calls on a lent block of words, whoever serves them.

use crate::answer::Answer;
use crate::call::{Call, Event};
use crate::layout::{decode, store_fresh, store_step, NEEDED};
use crate::store::fault::Fault;
use crate::store::tables::Sizes;
use crate::store::Store;

/// Whoever serves the calls. Each answers the number of its answer.
pub trait Calls {
    fn fresh(&self, block: &mut [u64], clients: u64, partitions: u64, items: u64) -> u64;
    fn start_read(&self, block: &mut [u64], client: u64, set: u64) -> u64;
    fn start_fast_read(&self, block: &mut [u64], client: u64, set: u64) -> u64;
    fn start_write(&self, block: &mut [u64], client: u64, set: u64, values: &[u8]) -> u64;
    fn start_mixed(
        &self,
        block: &mut [u64],
        client: u64,
        read: u64,
        write: u64,
        values: &[u8],
    ) -> u64;
    fn deliver(&self, block: &mut [u64], place: u64) -> u64;
    fn show(&self, block: &[u64], client: u64, output: &mut [u8]) -> u64;
    fn clear(&self, block: &mut [u64]) -> u64;
    fn hand_over(&self, block: &mut [u64], giver: u64, receiver: u64) -> u64;
    fn compare(&self, block: &[u64], first: u64, second: u64) -> u64;
    fn check(&self, block: &[u64]) -> u64;

    /// Makes the call, with this output for a showing.
    #[inline]
    fn call(&self, block: &mut [u64], call: &Call, output: &mut [u8]) -> u64 {
        match call {
            Call::Fresh { clients, partitions, items, .. } => {
                self.fresh(block, *clients, *partitions, *items)
            }
            Call::Read { client, set } => self.start_read(block, *client, *set),
            Call::FastRead { client, set } => self.start_fast_read(block, *client, *set),
            Call::Write { client, set, values } => self.start_write(block, *client, *set, values),
            Call::Mixed { client, read, write, values } => {
                self.start_mixed(block, *client, *read, *write, values)
            }
            Call::Deliver { place } => self.deliver(block, *place),
            Call::Show { client, .. } => self.show(block, *client, output),
            Call::Clear => self.clear(block),
            Call::HandOver { giver, receiver } => self.hand_over(block, *giver, *receiver),
            Call::Compare { first, second } => self.compare(block, *first, *second),
            Call::Check => self.check(block),
        }
    }
}

/// Makes the call on the block; a fresh on a block that is not long enough gets a part that isn't.
pub fn make(served: &dyn Calls, block: &mut [u64], call: &Call) -> Event {
    let length = match call {
        Call::Fresh { long_enough: false, .. } => block.len().min(NEEDED - 1),
        _ => block.len(),
    };
    let mut output = call.output();
    let answer = served.call(&mut block[..length], call, &mut output);
    Event { call: call.clone(), answer, output }
}

/// The model's store on blocks, by way of their layout; for tests alone with a fault.
#[derive(Clone, Copy, Debug, Default)]
pub struct Modelled {
    pub fault: Option<Fault>,
}

impl Modelled {
    /// The store whose tables the block holds; or that the block is refused by 1.
    fn store(&self, block: &[u64]) -> Result<Store, Answer> {
        let tables = decode(block).ok_or(Answer::Refused(1))?;
        let store = Store::with_tables(tables);
        Ok(match self.fault {
            Some(fault) => store.with_fault(fault),
            None => store,
        })
    }

    /// A start, a clearing, a hand-over, or the delivery of the message at a place.
    fn step(
        &self,
        block: &mut [u64],
        delivered: Option<u64>,
        step: impl FnOnce(&mut Store) -> Answer,
    ) -> u64 {
        let mut store = match self.store(block) {
            Ok(store) => store,
            Err(refusal) => return refusal.number(),
        };
        let answer = step(&mut store);
        if !matches!(answer, Answer::Refused(_)) {
            store_step(block, delivered.map(|place| place as usize), &store.tables);
        }
        answer.number()
    }
}

impl Calls for Modelled {
    fn fresh(&self, block: &mut [u64], clients: u64, partitions: u64, items: u64) -> u64 {
        let sizes = Sizes::new(clients, partitions, items);
        let answer = Store::new().fresh(block.len() >= NEEDED, sizes);
        if answer == Answer::Fresh {
            store_fresh(block, sizes);
        }
        answer.number()
    }

    fn start_read(&self, block: &mut [u64], client: u64, set: u64) -> u64 {
        self.step(block, None, |store| store.start_read(client, set))
    }

    fn start_fast_read(&self, block: &mut [u64], client: u64, set: u64) -> u64 {
        self.step(block, None, |store| store.start_fast_read(client, set))
    }

    fn start_write(&self, block: &mut [u64], client: u64, set: u64, values: &[u8]) -> u64 {
        self.step(block, None, |store| store.start_write(client, set, values))
    }

    fn start_mixed(
        &self,
        block: &mut [u64],
        client: u64,
        read: u64,
        write: u64,
        values: &[u8],
    ) -> u64 {
        self.step(block, None, |store| store.start_mixed(client, read, write, values))
    }

    fn deliver(&self, block: &mut [u64], place: u64) -> u64 {
        self.step(block, Some(place), |store| store.deliver(place))
    }

    fn show(&self, block: &[u64], client: u64, output: &mut [u8]) -> u64 {
        match self.store(block) {
            Ok(store) => store.show(client, output).number(),
            Err(refusal) => refusal.number(),
        }
    }

    fn clear(&self, block: &mut [u64]) -> u64 {
        self.step(block, None, Store::clear)
    }

    fn hand_over(&self, block: &mut [u64], giver: u64, receiver: u64) -> u64 {
        self.step(block, None, |store| store.hand_over(giver, receiver))
    }

    fn compare(&self, block: &[u64], first: u64, second: u64) -> u64 {
        match self.store(block) {
            Ok(store) => store.compare(first, second).number(),
            Err(refusal) => refusal.number(),
        }
    }

    fn check(&self, block: &[u64]) -> u64 {
        match self.store(block) {
            Ok(store) => store.check().number(),
            Err(refusal) => refusal.number(),
        }
    }
}
