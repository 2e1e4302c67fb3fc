//! Each step's tables, written down from documents 01 and 02.

mod clearings;
mod fast_reads;
mod hand_overs;
mod mixed;
mod offers;
mod reads;
mod showings;
mod starts;
mod writes;

use crate::support::{deliver, made, set_of};
use koolvent_model::answer::Answer;
use koolvent_model::stamp::{Entry, Stamp};
use koolvent_model::store::message::Message;
use koolvent_model::store::tables::{Client, Tables, Version, WRITING};

fn get(client: u64, item: u64, stamp: Stamp) -> Message {
    Message::Get { client, item, stamp }
}

fn got(client: u64, version: Version, latest: Entry) -> Message {
    Message::Got { client, version, latest }
}

fn prepare(version: Version) -> Message {
    Message::Prepare(version)
}

fn prepared(item: u64, stamp: Stamp) -> Message {
    Message::Prepared { item, stamp }
}

fn commit(partition: u64, stamp: Stamp) -> Message {
    Message::Commit { partition, stamp }
}

/// Delivers the only message of the tables and gives the tables after it.
fn delivered(mut tables: Tables, message: Message) -> (Answer, Tables) {
    tables.messages = vec![message];
    let (answer, after, _) = made(&tables, deliver(0));
    (answer, after)
}

/// Client 1 writing {0, 2} with values 7 and 8 and stamp (1, 1), still awaiting these.
fn writing(awaited: &[u64]) -> Client {
    let mut client = Client::INITIAL;
    client.mode = WRITING;
    client.count = 1;
    client.set = set_of(&[0, 2]);
    client.awaited = set_of(awaited);
    for (item, value) in [(0, 7), (2, 8)] {
        client.stamps[item] = Stamp::new(1, 1);
        client.values[item] = value;
    }
    client
}
