//! The same tables with their items elsewhere: one below 32 and three beyond, at three partitions.

use koolvent_model::set::items;
use koolvent_model::stamp::Entry;
use koolvent_model::store::message::Message;
use koolvent_model::store::tables::{Client, Ended, Sizes, Tables, Version, WritePart, ITEMS};

/// Where items 0 to 3 lie then, of 64: at partitions 1, 0, 2 and 0 of three.
const ITEM: [u64; 4] = [31, 33, 50, 63];

/// The tables of four items, moved.
pub fn moved(tables: &Tables) -> Tables {
    let mut far = Tables::fresh(Sizes { partitions: 3, items: 64, ..tables.sizes });
    far.latest = row(&tables.latest, entry);
    *far.view = tables.view.map(|view| row(&view, entry));
    *far.clients = tables.clients.map(client);
    far.versions = tables.versions.iter().copied().map(version).collect();
    far.messages = tables.messages.iter().copied().map(message).collect();
    far
}

fn item(item: u64) -> u64 {
    ITEM[item as usize]
}

fn set(of: u64) -> u64 {
    items(of).map(|of| 1 << item(of)).sum()
}

fn entry(of: Entry) -> Entry {
    Entry::new(of.stamp, set(of.set))
}

fn version(of: Version) -> Version {
    Version { item: item(of.item), set: set(of.set), ..of }
}

/// What stands by item.
fn row<T: Copy + Default>(of: &[T; ITEMS], moved: impl Fn(T) -> T) -> [T; ITEMS] {
    let mut far = [T::default(); ITEMS];
    for (place, one) in ITEM.iter().zip(of) {
        far[*place as usize] = moved(*one);
    }
    far
}

fn client(of: Client) -> Client {
    let last = Ended {
        set: set(of.last.set),
        stamps: row(&of.last.stamps, |stamp| stamp),
        values: row(&of.last.values, |value| value),
        write_set: set(of.last.write_set),
        write_values: row(&of.last.write_values, |value| value),
        ..of.last
    };
    let write = WritePart {
        set: set(of.write.set),
        awaited: set(of.write.awaited),
        values: row(&of.write.values, |value| value),
        ..of.write
    };
    Client {
        set: set(of.set),
        awaited: set(of.awaited),
        stamps: row(&of.stamps, |stamp| stamp),
        values: row(&of.values, |value| value),
        firsts: row(&of.firsts, entry),
        write,
        last,
        ..of
    }
}

fn message(of: Message) -> Message {
    match of {
        Message::Prepare(of) => Message::Prepare(version(of)),
        Message::Prepared { item: of, stamp } => Message::Prepared { item: item(of), stamp },
        Message::Commit { .. } => of,
        Message::Get { client, item: of, stamp } => Message::Get { client, item: item(of), stamp },
        Message::Got { client, version: of, latest } => {
            Message::Got { client, version: version(of), latest: entry(latest) }
        }
        Message::FirstGet { client, item: of } => Message::FirstGet { client, item: item(of) },
        Message::FirstReply { client, version: of, latest } => {
            Message::FirstReply { client, version: version(of), latest: entry(latest) }
        }
    }
}
