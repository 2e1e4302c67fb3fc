//! The calls.

/// A call and what it was given.
#[derive(Clone, Debug, PartialEq, Eq)]
pub enum Call {
    /// Fresh, on a block that is long enough or not.
    Fresh {
        long_enough: bool,
        clients: u64,
        partitions: u64,
        items: u64,
    },
    Read {
        client: u64,
        set: u64,
    },
    /// A read of the latest committed versions.
    FastRead {
        client: u64,
        set: u64,
    },
    /// The values as bytes, four an item.
    Write {
        client: u64,
        set: u64,
        values: Vec<u8>,
    },
    /// Reads one set and writes another, with the values as of a write.
    Mixed {
        client: u64,
        read: u64,
        write: u64,
        values: Vec<u8>,
    },
    Deliver {
        place: u64,
    },
    /// The output's bytes before the call.
    Show {
        client: u64,
        output: Vec<u8>,
    },
    /// Drops the stored versions that nothing names any more.
    Clear,
    /// The receiver takes over what the giver has seen.
    HandOver {
        giver: u64,
        receiver: u64,
    },
    /// Tells how the first client's view stands to the second's.
    Compare {
        first: u64,
        second: u64,
    },
    /// Tells whether the block is as good as one that the calls have made.
    Check,
}

impl Call {
    /// The output's bytes before the call, none but at a showing.
    pub fn output(&self) -> Vec<u8> {
        match self {
            Call::Show { output, .. } => output.clone(),
            _ => Vec::new(),
        }
    }
}

/// A call, the number it answered, and the output's bytes after it (none but at a showing).
#[derive(Clone, Debug, PartialEq, Eq)]
pub struct Event {
    pub call: Call,
    pub answer: u64,
    pub output: Vec<u8>,
}
