//! Where each word lies in the block. Clients count from 1; items, versions and messages from 0.

use crate::store::tables::{CLIENTS as MOST_CLIENTS, ITEMS as MOST_ITEMS};
use crate::store::tables::{LOAD_CAPACITY, VERSION_CAPACITY};

/// Words of the header, of a client's scalars, of an entry, a version and a message.
const HEADER_WORDS: usize = 16;
const CLIENT_WORDS: usize = 16;
const ENTRY_WORDS: usize = 2;
const VERSION_WORDS: usize = 4;
pub const MESSAGE_WORDS: usize = 8;

/// Where each section starts: where the one before it ends.
const SCALARS: usize = HEADER_WORDS;
const LATEST: usize = SCALARS + CLIENT_WORDS * MOST_CLIENTS;
const VIEWS: usize = LATEST + ENTRY_WORDS * MOST_ITEMS;
const ASKED: usize = VIEWS + ENTRY_WORDS * MOST_ITEMS * MOST_CLIENTS;
const VALUES: usize = ASKED + MOST_ITEMS * MOST_CLIENTS;
const LAST_STAMPS: usize = VALUES + MOST_ITEMS * MOST_CLIENTS;
const LAST_VALUES: usize = LAST_STAMPS + MOST_ITEMS * MOST_CLIENTS;
const FIRSTS: usize = LAST_VALUES + MOST_ITEMS * MOST_CLIENTS;
const STORED: usize = FIRSTS + ENTRY_WORDS * MOST_ITEMS * MOST_CLIENTS;
const IN_FLIGHT: usize = STORED + VERSION_WORDS * VERSION_CAPACITY as usize;

/// The words that a block needs.
pub const NEEDED: usize = IN_FLIGHT + MESSAGE_WORDS * LOAD_CAPACITY as usize;

/// The sizes: how many clients, partitions and items there are.
pub const CLIENTS: usize = 0;
pub const PARTITIONS: usize = 1;
pub const ITEMS: usize = 2;
/// How many versions are stored.
pub const VERSIONS: usize = 3;
/// How many messages are in flight.
pub const MESSAGES: usize = 4;
/// The header's words that are no field.
pub const UNUSED: std::ops::Range<usize> = 5..HEADER_WORDS;

/// A client's words that are one each.
#[derive(Clone, Copy)]
pub enum Scalar {
    Mode,
    Count,
    Set,
    Awaited,
    /// Of a running write, mixed or not.
    Stamp,
    LastKind,
    LastSet,
    /// Of a write that ended last, mixed or not.
    LastStamp,
    /// Of a running mixed transaction, what it writes.
    WriteSet,
    /// And what of that it awaits.
    WriteAwaited,
    /// Of a mixed transaction that ended last, what it wrote.
    LastWriteSet,
}

pub fn scalar(client: usize, scalar: Scalar) -> usize {
    SCALARS + CLIENT_WORDS * (client - 1) + scalar as usize
}

/// The latest's stamp, then its set.
pub fn latest(item: usize) -> usize {
    LATEST + ENTRY_WORDS * item
}

/// The view entry's stamp, then its set.
pub fn view(client: usize, item: usize) -> usize {
    VIEWS + ENTRY_WORDS * by_item(client, item)
}

/// The stamp that a read asks for, and of a fast read's second part the one that it will show.
pub fn asked(client: usize, item: usize) -> usize {
    ASKED + by_item(client, item)
}

/// The value that came, or is written; of a mixed transaction both, in the two halves of the word.
pub fn value(client: usize, item: usize) -> usize {
    VALUES + by_item(client, item)
}

/// The stamp of a read that ended last.
pub fn last_stamp(client: usize, item: usize) -> usize {
    LAST_STAMPS + by_item(client, item)
}

/// The value of the transaction that ended last, of a mixed one both.
pub fn last_value(client: usize, item: usize) -> usize {
    LAST_VALUES + by_item(client, item)
}

/// The stamp of a first reply that a fast read keeps, then its set.
pub fn first(client: usize, item: usize) -> usize {
    FIRSTS + ENTRY_WORDS * by_item(client, item)
}

fn by_item(client: usize, item: usize) -> usize {
    MOST_ITEMS * (client - 1) + item
}

/// A stored version's item, value, stamp and set.
pub fn version(place: usize) -> usize {
    STORED + VERSION_WORDS * place
}

/// A message's kind; client or partition; item; value; stamp; set; latest's stamp; latest's set.
pub fn message(place: usize) -> usize {
    IN_FLIGHT + MESSAGE_WORDS * place
}

/// The client whose words hold this place.
pub fn client_at(place: usize) -> Option<usize> {
    let client = match place {
        SCALARS..LATEST => (place - SCALARS) / CLIENT_WORDS,
        VIEWS..ASKED => (place - VIEWS) / (ENTRY_WORDS * MOST_ITEMS),
        ASKED..FIRSTS => (place - ASKED) / MOST_ITEMS % MOST_CLIENTS,
        FIRSTS..STORED => (place - FIRSTS) / (ENTRY_WORDS * MOST_ITEMS),
        _ => return None,
    };
    Some(client + 1)
}

/// The message whose words hold this place.
pub fn message_at(place: usize) -> Option<usize> {
    let words = IN_FLIGHT..NEEDED;
    words.contains(&place).then(|| (place - IN_FLIGHT) / MESSAGE_WORDS)
}
