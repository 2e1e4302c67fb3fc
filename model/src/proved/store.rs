//! The calls on a block.

use crate::block::Calls;

mod library {
    #[link(name = "store", kind = "static")]
    extern "C" {
        pub fn koolvent_fresh(
            block: *mut u64,
            length: usize,
            clients: u64,
            partitions: u64,
            items: u64,
        ) -> u64;
        pub fn koolvent_start_read(block: *mut u64, length: usize, client: u64, set: u64) -> u64;
        pub fn koolvent_start_fast_read(
            block: *mut u64,
            length: usize,
            client: u64,
            set: u64,
        ) -> u64;
        pub fn koolvent_start_write(
            block: *mut u64,
            length: usize,
            client: u64,
            set: u64,
            values: *const u8,
            bytes: usize,
        ) -> u64;
        pub fn koolvent_start_mixed(
            block: *mut u64,
            length: usize,
            client: u64,
            read: u64,
            write: u64,
            values: *const u8,
            bytes: usize,
        ) -> u64;
        pub fn koolvent_deliver(block: *mut u64, length: usize, place: u64) -> u64;
        pub fn koolvent_show(
            block: *const u64,
            length: usize,
            client: u64,
            output: *mut u8,
            room: usize,
        ) -> u64;
        pub fn koolvent_clear(block: *mut u64, length: usize) -> u64;
        pub fn koolvent_hand_over(block: *mut u64, length: usize, giver: u64, receiver: u64)
            -> u64;
        pub fn koolvent_compare(block: *const u64, length: usize, first: u64, second: u64) -> u64;
        pub fn koolvent_check(block: *const u64, length: usize) -> u64;
    }
}

/// The proved store.
pub struct Proved;

impl Calls for Proved {
    #[inline]
    fn fresh(&self, block: &mut [u64], clients: u64, partitions: u64, items: u64) -> u64 {
        let (words, length) = (block.as_mut_ptr(), block.len());
        unsafe { library::koolvent_fresh(words, length, clients, partitions, items) }
    }

    #[inline]
    fn start_read(&self, block: &mut [u64], client: u64, set: u64) -> u64 {
        unsafe { library::koolvent_start_read(block.as_mut_ptr(), block.len(), client, set) }
    }

    #[inline]
    fn start_fast_read(&self, block: &mut [u64], client: u64, set: u64) -> u64 {
        unsafe { library::koolvent_start_fast_read(block.as_mut_ptr(), block.len(), client, set) }
    }

    #[inline]
    fn start_write(&self, block: &mut [u64], client: u64, set: u64, values: &[u8]) -> u64 {
        let (words, length) = (block.as_mut_ptr(), block.len());
        let (bytes, count) = (values.as_ptr(), values.len());
        unsafe { library::koolvent_start_write(words, length, client, set, bytes, count) }
    }

    #[inline]
    fn start_mixed(
        &self,
        block: &mut [u64],
        client: u64,
        read: u64,
        write: u64,
        values: &[u8],
    ) -> u64 {
        let (words, length) = (block.as_mut_ptr(), block.len());
        let (bytes, count) = (values.as_ptr(), values.len());
        unsafe { library::koolvent_start_mixed(words, length, client, read, write, bytes, count) }
    }

    #[inline]
    fn deliver(&self, block: &mut [u64], place: u64) -> u64 {
        unsafe { library::koolvent_deliver(block.as_mut_ptr(), block.len(), place) }
    }

    #[inline]
    fn show(&self, block: &[u64], client: u64, output: &mut [u8]) -> u64 {
        let (words, length) = (block.as_ptr(), block.len());
        let (bytes, room) = (output.as_mut_ptr(), output.len());
        unsafe { library::koolvent_show(words, length, client, bytes, room) }
    }

    #[inline]
    fn clear(&self, block: &mut [u64]) -> u64 {
        unsafe { library::koolvent_clear(block.as_mut_ptr(), block.len()) }
    }

    #[inline]
    fn hand_over(&self, block: &mut [u64], giver: u64, receiver: u64) -> u64 {
        unsafe { library::koolvent_hand_over(block.as_mut_ptr(), block.len(), giver, receiver) }
    }

    #[inline]
    fn compare(&self, block: &[u64], first: u64, second: u64) -> u64 {
        unsafe { library::koolvent_compare(block.as_ptr(), block.len(), first, second) }
    }

    #[inline]
    fn check(&self, block: &[u64]) -> u64 {
        unsafe { library::koolvent_check(block.as_ptr(), block.len()) }
    }
}
