//! The calls of a write and a read on the small sheet, and those of a sheet's life, whoever serves
//! them.

use crate::block::Lent;
use koolvent_model::block::Calls;
use koolvent_model::proved::store::Proved;
use std::hint::black_box;

pub const SHEET: u64 = 0b1111;
/// A write and a read are so many calls.
pub const CALLS: usize = 22;
/// The refusal of a write that would be over 512 versions.
const FULL: u64 = 9;

/// What is played on a sheet: a write and a read of its four items.
#[derive(Clone, Copy)]
pub enum Play {
    /// Client 1 writes, client 2 reads.
    WriteAndRead,
    WriteAndFastRead,
    /// Client 1 reads and then writes, in two transactions or in one.
    ReadThenWrite,
    Mixed,
}

impl Play {
    /// So many calls it has.
    pub fn calls(self) -> usize {
        match self {
            Play::Mixed => CALLS - 2,
            _ => CALLS,
        }
    }

    /// What the name of its row says of it.
    pub fn how(self) -> &'static str {
        match self {
            Play::WriteAndRead => "",
            Play::WriteAndFastRead => ", the read fast",
            Play::ReadThenWrite => ", by one client, first the read",
            Play::Mixed => ", both in one mixed transaction: 20 calls",
        }
    }

    /// All messages are delivered, and what has ended is shown. A write that the sheet has no room
    /// for is made after a clearing.
    pub fn make(self, served: &impl Calls, lent: &mut Lent, value: u32) {
        let block = black_box(&mut lent.block[..]);
        let output = &mut lent.output[..];
        let mut values = [0; 16];
        for (item, bytes) in values.chunks_mut(4).enumerate() {
            bytes.copy_from_slice(&(value + item as u32).to_be_bytes());
        }
        match self {
            Play::WriteAndRead | Play::WriteAndFastRead => {
                let mut started = served.start_write(block, 1, SHEET, &values);
                if started == FULL {
                    accepted(served.clear(block));
                    started = served.start_write(block, 1, SHEET, &values);
                }
                deliver_all(served, block, started);
                let started = match self {
                    Play::WriteAndFastRead => served.start_fast_read(block, 2, SHEET),
                    _ => served.start_read(block, 2, SHEET),
                };
                deliver_all(served, block, started);
                accepted(served.show(block, 1, output));
                accepted(served.show(block, 2, output));
            }
            Play::ReadThenWrite => {
                let started = served.start_read(block, 1, SHEET);
                deliver_all(served, block, started);
                accepted(served.show(block, 1, output));
                let started = served.start_write(block, 1, SHEET, &values);
                deliver_all(served, block, started);
                accepted(served.show(block, 1, output));
            }
            Play::Mixed => {
                let started = served.start_mixed(block, 1, SHEET, SHEET, &values);
                deliver_all(served, block, started);
                accepted(served.show(block, 1, output));
            }
        }
    }
}

/// All that is in flight after an accepted start.
fn deliver_all(served: &impl Calls, block: &mut [u64], started: u64) {
    let mut messages = accepted(started) >> 8;
    while messages > 0 {
        messages = accepted(served.deliver(block, 0)) >> 16 & 0xffff;
    }
}

fn accepted(answer: u64) -> u64 {
    assert_eq!(answer & 0xff, 0);
    answer
}

/// The life of a sheet: from a fresh start on so many writes, each read, with a clearing whenever 9
/// refuses one.
#[derive(Clone, Copy)]
pub struct Life {
    pub writes: usize,
    /// Also with a clearing after every so many of them.
    pub cleared_after: Option<usize>,
}

impl Life {
    pub fn live(self, served: &impl Calls, lent: &mut Lent) {
        accepted(served.fresh(&mut lent.block, 2, 2, 4));
        for write in 1..=self.writes {
            Play::WriteAndRead.make(served, lent, write as u32);
            if self.cleared_after.is_some_and(|writes| write % writes == 0) {
                accepted(served.clear(black_box(&mut lent.block)));
            }
        }
    }
}

/// The proved store, with a look at the block before each call but a fresh start.
pub struct Looked<Look>(pub Look);

impl<Look: Fn(&[u64])> Calls for Looked<Look> {
    fn fresh(&self, block: &mut [u64], clients: u64, partitions: u64, items: u64) -> u64 {
        Proved.fresh(block, clients, partitions, items)
    }

    fn start_read(&self, block: &mut [u64], client: u64, set: u64) -> u64 {
        self.0(block);
        Proved.start_read(block, client, set)
    }

    fn start_write(&self, block: &mut [u64], client: u64, set: u64, values: &[u8]) -> u64 {
        self.0(block);
        Proved.start_write(block, client, set, values)
    }

    fn deliver(&self, block: &mut [u64], place: u64) -> u64 {
        self.0(block);
        Proved.deliver(block, place)
    }

    fn show(&self, block: &[u64], client: u64, output: &mut [u8]) -> u64 {
        self.0(block);
        Proved.show(block, client, output)
    }

    fn clear(&self, block: &mut [u64]) -> u64 {
        self.0(block);
        Proved.clear(block)
    }

    fn hand_over(&self, block: &mut [u64], giver: u64, receiver: u64) -> u64 {
        self.0(block);
        Proved.hand_over(block, giver, receiver)
    }

    fn compare(&self, block: &[u64], first: u64, second: u64) -> u64 {
        self.0(block);
        Proved.compare(block, first, second)
    }

    fn start_fast_read(&self, block: &mut [u64], client: u64, set: u64) -> u64 {
        self.0(block);
        Proved.start_fast_read(block, client, set)
    }

    fn start_mixed(
        &self,
        block: &mut [u64],
        client: u64,
        read: u64,
        write: u64,
        values: &[u8],
    ) -> u64 {
        self.0(block);
        Proved.start_mixed(block, client, read, write, values)
    }

    fn check(&self, block: &[u64]) -> u64 {
        self.0(block);
        Proved.check(block)
    }
}

/// So many checks are made before each call to tell what one takes: they take several times as long
/// as the calls, whose time is taken off.
pub const CHECKS: usize = 8;

/// Checks of all fields, and next to nothing else: showings to a client that doesn't exist.
pub fn check_often(block: &[u64]) {
    for _ in 0..CHECKS {
        assert_eq!(Proved.show(black_box(block), 9, &mut []), 3);
    }
}
