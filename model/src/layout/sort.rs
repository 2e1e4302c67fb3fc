//! What fields are numbers of.

use super::stamp_word;
use crate::stamp::Stamp;
use crate::store::message::FIRST_REPLY;
use crate::store::range::GREATEST;
use crate::store::tables::{
    Sizes, CLIENTS, ITEMS, KINDS, LOAD_CAPACITY, MODES, PARTITIONS, VERSION_CAPACITY,
};

/// What a field is a number of.
#[derive(Clone, Copy, Debug, PartialEq, Eq, PartialOrd, Ord)]
pub enum Sort {
    NumberOfClients,
    NumberOfPartitions,
    NumberOfItems,
    NumberOfVersions,
    NumberOfMessages,
    Mode,
    LastKind,
    MessageKind,
    Client,
    Partition,
    Item,
    Count,
    Value,
    /// Two values, each in a half of the word: in range whatever it is.
    Values,
    Stamp,
    Set,
    /// Of a first reply that is kept.
    FirstStamp,
    FirstSet,
}

impl Sort {
    /// The greatest word in range, in tables of these sizes.
    pub fn greatest(self, sizes: &Sizes) -> u64 {
        match self {
            Sort::NumberOfClients => CLIENTS as u64,
            Sort::NumberOfPartitions => PARTITIONS as u64,
            Sort::NumberOfItems => ITEMS as u64,
            Sort::NumberOfVersions => VERSION_CAPACITY,
            Sort::NumberOfMessages => LOAD_CAPACITY,
            Sort::Mode => MODES - 1,
            Sort::LastKind => KINDS - 1,
            Sort::MessageKind => FIRST_REPLY,
            Sort::Client => sizes.clients,
            Sort::Partition => sizes.partitions - 1,
            Sort::Item => sizes.items - 1,
            Sort::Count | Sort::Value => GREATEST,
            Sort::Values => u64::MAX,
            Sort::Stamp | Sort::FirstStamp => stamp_word(Stamp::new(GREATEST, sizes.clients)),
            Sort::Set | Sort::FirstSet => u64::MAX >> (ITEMS as u64 - sizes.items),
        }
    }
}
