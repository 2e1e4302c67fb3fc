//! Log frames: what a client wrote, what a client was shown, and who handed over to whom.

use super::hex::{number, to_hex};
use crate::set::items;
use crate::stamp::Stamp;

/// How a read was made.
#[derive(Clone, Copy, Debug, PartialEq, Eq)]
pub enum Manner {
    Ordinary,
    /// Of the latest committed versions.
    Fast,
}

/// The parts of a frame: how its read part was made if it has one, and whether it has a write part
/// and a receiver.
type Parts = (Option<Manner>, bool, bool);

/// Kind bytes of frames, in words, and their parts.
const KINDS: [(u8, &str, Parts); 5] = [
    (0x20, "write", (None, true, false)),
    (0x21, "read", (Some(Manner::Ordinary), false, false)),
    (0x22, "hand-over", (None, false, true)),
    (0x23, "fast read", (Some(Manner::Fast), false, false)),
    (0x24, "mixed transaction", (Some(Manner::Ordinary), true, false)),
];

/// The most bytes that one has: a mixed transaction that reads and writes 64 items.
pub const MOST_BYTES: usize = 22 + 9 * 64 + 4 * 64;

/// What a read shows of one item: the number and client (the writing desk) of its stamp, and its
/// value.
#[derive(Clone, Copy, Debug, PartialEq, Eq)]
pub struct Shown {
    pub number: u32,
    pub client: u8,
    pub value: u32,
}

impl Shown {
    /// What nobody wrote.
    pub const INITIAL: Shown = Shown { number: 0, client: 0, value: 0 };
}

/// A log frame: what a client was shown, what it wrote, or to whom it handed over, of which its
/// kind has one; a mixed transaction was shown one part and wrote the other. A client is document
/// 01's desk.
#[derive(Clone, Debug, PartialEq, Eq)]
pub struct LogFrame {
    /// Of a hand-over, the giver.
    pub client: u8,
    pub read: Option<ReadPart>,
    pub write: Option<WritePart>,
    pub receiver: Option<u8>,
}

/// In `21` and `24`, and of a fast read in `23`: set, then per line number, writing desk, value. A
/// set holds item k (document 01's line of a sheet) as the bit worth 2 to the power k, and there is
/// an entry for each item, ascending.
#[derive(Clone, Debug, PartialEq, Eq)]
pub struct ReadPart {
    pub manner: Manner,
    pub set: u64,
    pub shown: Vec<Shown>,
}

/// In `20`, and in `24` after the read part: set, number, and a value for each item, ascending.
#[derive(Clone, Debug, PartialEq, Eq)]
pub struct WritePart {
    pub set: u64,
    pub number: u32,
    pub values: Vec<u32>,
}

/// An item as a frame wrote or shows it.
#[derive(Clone, Copy, Debug, PartialEq, Eq)]
pub struct Entry {
    pub item: u64,
    pub stamp: Stamp,
    pub value: u32,
}

impl LogFrame {
    /// A frame `20`.
    pub fn of_write(client: u8, set: u64, number: u32, values: Vec<u32>) -> LogFrame {
        let write = Some(WritePart { set, number, values });
        LogFrame { client, read: None, write, receiver: None }
    }

    /// A frame `21`.
    pub fn of_read(client: u8, set: u64, shown: Vec<Shown>) -> LogFrame {
        let read = Some(ReadPart { manner: Manner::Ordinary, set, shown });
        LogFrame { client, read, write: None, receiver: None }
    }

    /// A frame `23`.
    pub fn of_fast_read(client: u8, set: u64, shown: Vec<Shown>) -> LogFrame {
        let read = Some(ReadPart { manner: Manner::Fast, set, shown });
        LogFrame { client, read, write: None, receiver: None }
    }

    /// A frame `24`: set and entries of the read part; set, number and values of the write part.
    pub fn of_mixed(
        client: u8,
        (set, shown): (u64, Vec<Shown>),
        (written, number, values): (u64, u32, Vec<u32>),
    ) -> LogFrame {
        let write = LogFrame::of_write(client, written, number, values).write;
        LogFrame { write, ..LogFrame::of_read(client, set, shown) }
    }

    /// A frame `22`.
    pub fn of_hand_over(giver: u8, receiver: u8) -> LogFrame {
        LogFrame { client: giver, read: None, write: None, receiver: Some(receiver) }
    }

    /// The frame's bytes, most significant byte first.
    pub fn bytes(&self) -> Vec<u8> {
        let [read, write] = self.part_bytes();
        [self.head(), read, write, Vec::from_iter(self.receiver)].concat()
    }

    /// For a fault alone: the bytes of a frame with its write part first.
    pub(crate) fn bytes_with_parts_swapped(&self) -> Vec<u8> {
        let [read, write] = self.part_bytes();
        [self.head(), write, read].concat()
    }

    /// The kind and the client.
    fn head(&self) -> Vec<u8> {
        let manner = self.read.as_ref().map(|read| read.manner);
        let parts = (manner, self.write.is_some(), self.receiver.is_some());
        let kind = KINDS.iter().find(|(_, _, has)| *has == parts);
        vec![kind.expect("a frame with a part").0, self.client]
    }

    /// The read part and the write part, each empty where there is none.
    fn part_bytes(&self) -> [Vec<u8>; 2] {
        let [mut read_bytes, mut write_bytes] = [Vec::new(), Vec::new()];
        if let Some(read) = &self.read {
            read_bytes.extend(read.set.to_be_bytes());
            for entry in &read.shown {
                read_bytes.extend(entry.number.to_be_bytes());
                read_bytes.push(entry.client);
                read_bytes.extend(entry.value.to_be_bytes());
            }
        }
        if let Some(write) = &self.write {
            write_bytes.extend(write.set.to_be_bytes());
            write_bytes.extend(write.number.to_be_bytes());
            write_bytes.extend(write.values.iter().flat_map(|value| value.to_be_bytes()));
        }
        [read_bytes, write_bytes]
    }

    /// The frame of these bytes, if the kind is known and the length is that of the set's items; or
    /// what is wrong. Whether its client, set and numbers will do is for the judge.
    pub fn parse(bytes: &[u8]) -> Result<LogFrame, String> {
        let first = bytes.first().copied().unwrap_or_default();
        let Some((_, name, has)) = KINDS.iter().find(|(kind, ..)| *kind == first) else {
            return Err(format!("unknown kind {first:02x}"));
        };
        let mut rest = Rest(&bytes[1..]);
        let frame = rest.frame(*has).filter(|_| rest.0.is_empty());
        frame.ok_or_else(|| wrong_length(name, *has, bytes))
    }

    /// The frame as a line of a log, with its line end.
    pub fn line(&self) -> String {
        to_hex(&self.bytes()) + "\n"
    }

    /// What its write part wrote, if it has one.
    pub fn written(&self) -> Vec<Entry> {
        let Some(WritePart { set, number, values }) = &self.write else {
            return Vec::new();
        };
        let stamp = Stamp::new((*number).into(), self.client.into());
        let entry = |(item, value): (u64, &u32)| Entry { item, stamp, value: *value };
        items(*set).zip(values).map(entry).collect()
    }

    /// What its read part shows, if it has one.
    pub fn shown(&self) -> Vec<Entry> {
        let Some(ReadPart { set, shown, .. }) = &self.read else {
            return Vec::new();
        };
        let entry = |(item, shown): (u64, &Shown)| Entry {
            item,
            stamp: Stamp::new(shown.number.into(), shown.client.into()),
            value: shown.value,
        };
        items(*set).zip(shown).map(entry).collect()
    }
}

/// Bytes that are still to be taken apart.
struct Rest<'a>(&'a [u8]);

impl<'a> Rest<'a> {
    fn take(&mut self, count: usize) -> Option<&'a [u8]> {
        let (taken, rest) = self.0.split_at_checked(count)?;
        self.0 = rest;
        Some(taken)
    }

    fn frame(&mut self, (manner, write, receiver): Parts) -> Option<LogFrame> {
        let client = self.take(1)?[0];
        let read = match manner {
            Some(manner) => Some(self.read_part(manner)?),
            None => None,
        };
        let write = if write { Some(self.write_part()?) } else { None };
        let receiver = if receiver { Some(self.take(1)?[0]) } else { None };
        Some(LogFrame { client, read, write, receiver })
    }

    fn read_part(&mut self, manner: Manner) -> Option<ReadPart> {
        let set = number(self.take(8)?);
        let shown = self.take(9 * set.count_ones() as usize)?.chunks(9).map(|entry| Shown {
            number: word(&entry[..4]),
            client: entry[4],
            value: word(&entry[5..]),
        });
        Some(ReadPart { manner, set, shown: shown.collect() })
    }

    fn write_part(&mut self) -> Option<WritePart> {
        let set = number(self.take(8)?);
        let number = word(self.take(4)?);
        let values = self.take(4 * set.count_ones() as usize)?.chunks(4).map(word);
        Some(WritePart { set, number, values: values.collect() })
    }
}

/// What is wrong with the length of a frame of this name and these parts.
fn wrong_length(name: &str, (manner, write, receiver): Parts, bytes: &[u8]) -> String {
    let length = bytes.len();
    if receiver {
        return format!("wrong length: a {name} has 3 bytes, this {length}");
    }
    let Some(set) = bytes.get(2..10) else {
        return format!("wrong length: {length}, too short for a client and a set");
    };
    let items = number(set).count_ones();
    if manner.is_some() && write {
        let read = 10 + 9 * items as usize;
        let Some(set) = bytes.get(read..read + 8) else {
            return format!("wrong length: {length}, too short for what it reads and a write set");
        };
        let written = number(set).count_ones();
        let right = 22 + 9 * items + 4 * written;
        return format!(
            "wrong length: a {name} that reads {items} and writes {written} has {right} bytes, \
             this {length}"
        );
    }
    let right = if write { 14 + 4 * items } else { 10 + 9 * items };
    let items = if items == 1 { "1 item".to_owned() } else { format!("{items} items") };
    format!("wrong length: a {name} of {items} has {right} bytes, this {length}")
}

/// A number of four bytes.
fn word(bytes: &[u8]) -> u32 {
    number(bytes) as u32
}
