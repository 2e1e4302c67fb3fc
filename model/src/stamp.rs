//! Stamps, and the entries that latest and views hold.

/// The number of a client's write, and the client (desk) that wrote. The greater number is later;
/// with equal numbers, the greater client.
#[derive(Clone, Copy, Debug, Default, PartialEq, Eq, PartialOrd, Ord)]
pub struct Stamp {
    pub number: u64,
    pub client: u64,
}

impl Stamp {
    /// Number 0 and client 0, before all others.
    pub const INITIAL: Stamp = Stamp::new(0, 0);

    pub const fn new(number: u64, client: u64) -> Stamp {
        Stamp { number, client }
    }
}

/// A stamp and the write set of the write that it names: what latest and views hold of an item.
#[derive(Clone, Copy, Debug, Default, PartialEq, Eq)]
pub struct Entry {
    pub stamp: Stamp,
    pub set: u64,
}

impl Entry {
    /// The initial stamp and the empty set.
    pub const INITIAL: Entry = Entry::new(Stamp::INITIAL, 0);

    pub const fn new(stamp: Stamp, set: u64) -> Entry {
        Entry { stamp, set }
    }
}
