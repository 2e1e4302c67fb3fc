//! Clearings (document 02, P5): which stored versions stay, and in which order.

use super::{get, got, writing};
use crate::support::{deliver, entry, made, read, set_of, tables, version, write};
use koolvent_model::answer::Answer;
use koolvent_model::call::Call;
use koolvent_model::stamp::{Entry, Stamp};
use koolvent_model::store::message::Message;
use koolvent_model::store::tables::{
    Client, Ended, Tables, Version, FAST_READ, FIRST_PART, READ, READING, SECOND_PART, WRITE,
};

const STAMP: Stamp = Stamp { number: 2, client: 1 };

/// Three items, two clients. The second and the fourth version are of one write, of items 0 and 1;
/// the first has its client, the third its number.
fn stored() -> Vec<Version> {
    vec![
        version(0, 6, Stamp::new(1, 1), &[0]),
        version(0, 7, STAMP, &[0, 1]),
        version(1, 9, Stamp::new(2, 2), &[1]),
        version(1, 8, STAMP, &[0, 1]),
    ]
}

fn with(change: impl FnOnce(&mut Tables)) -> Tables {
    let mut tables = tables(2, 2, 3);
    tables.versions = stored();
    change(&mut tables);
    tables
}

/// A clearing leaves the versions at these places, in this order, and nothing else changes.
fn leaves(before: &Tables, places: &[usize]) {
    let (answer, after, _) = made(before, Call::Clear);
    let kept: Vec<Version> = places.iter().map(|place| before.versions[*place]).collect();
    let gone = (before.versions.len() - kept.len()) as u64;
    assert_eq!(answer, Answer::Cleared { gone });
    assert_eq!(after, Tables { versions: kept, ..before.clone() });
}

/// The write's versions stay, on both items, and the others go.
fn spares(change: impl FnOnce(&mut Tables)) {
    leaves(&with(change), &[1, 3]);
}

/// All four go.
fn spares_nothing(change: impl FnOnce(&mut Tables)) {
    leaves(&with(change), &[]);
}

#[test]
fn versions_that_nothing_names_go() {
    spares_nothing(|_| ());
    leaves(&tables(2, 2, 3), &[]);
}

#[test]
fn a_view_spares_whosever_it_is_and_at_whichever_item() {
    for client in 1..=2 {
        for item in 0..3 {
            spares(|tables| tables.view_mut(client)[item] = Entry::new(STAMP, set_of(&[0, 1])));
        }
    }
}

#[test]
fn a_latest_spares_at_whichever_item() {
    for item in 0..3 {
        spares(|tables| tables.latest[item] = Entry::new(STAMP, set_of(&[0, 1])));
    }
}

#[test]
fn a_message_of_each_kind_spares_whatever_its_item() {
    for item in 0..3 {
        let prepare = Message::Prepare(version(item, 8, STAMP, &[0, 1, 2]));
        let initial = version(item, 0, Stamp::INITIAL, &[]);
        let first_reply = |version, latest| Message::FirstReply { client: 2, version, latest };
        let messages = [
            prepare,
            Message::Prepared { item, stamp: STAMP },
            get(2, item, STAMP),
            got(2, version(item, 8, STAMP, &[0, 1]), Entry::INITIAL),
            got(2, initial, Entry::new(STAMP, set_of(&[0, 1]))),
            first_reply(version(item, 8, STAMP, &[0, 1]), Entry::INITIAL),
            first_reply(initial, Entry::new(STAMP, set_of(&[0, 1]))),
        ];
        for message in messages {
            let others = get(1, item, Stamp::INITIAL);
            spares(|tables| tables.messages = vec![others, message, others]);
        }
    }
    for partition in 0..2 {
        let commit = Message::Commit { partition, stamp: STAMP };
        spares(|tables| tables.messages = vec![commit]);
    }
}

/// In a block that no calls leave it has no message.
#[test]
fn a_write_under_way_spares_though_all_its_prepares_are_delivered() {
    let under_way = |client: u64| {
        spares(|tables| {
            let mut writer = writing(&[0]);
            writer.stamps = [Stamp::INITIAL; 64];
            writer.stamps[0] = STAMP;
            writer.stamps[2] = STAMP;
            *tables.client_mut(client) = writer;
        });
    };
    under_way(1);
    under_way(2);
}

#[test]
fn a_last_ended_transaction_spares_nothing() {
    for client in 1..=2 {
        let mut shown = Ended { kind: READ, set: set_of(&[0, 1]), ..Ended::NONE };
        shown.stamps[0] = STAMP;
        shown.stamps[1] = STAMP;
        spares_nothing(|tables| tables.client_mut(client).last = shown);
        let fast = Ended { kind: FAST_READ, ..shown };
        spares_nothing(|tables| tables.client_mut(client).last = fast);
        let wrote = Ended { kind: WRITE, set: set_of(&[0, 1]), stamp: STAMP, ..Ended::NONE };
        spares_nothing(|tables| tables.client_mut(client).last = wrote);
    }
}

/// Without a get or got of it, which only a block has that no calls leave.
#[test]
fn a_stamp_asked_for_spares_nothing() {
    let mut asking = Client { set: set_of(&[0, 1]), ..Client::INITIAL };
    asking.stamps[0] = STAMP;
    asking.stamps[1] = STAMP;
    spares_nothing(|tables| *tables.client_mut(2) = asking);
    let reading = Client { mode: READING, awaited: set_of(&[1]), ..asking };
    spares_nothing(|tables| *tables.client_mut(2) = reading);
}

/// Until the read ends: in its first part those of items no longer awaited, in its second all, of
/// items fetched again too.
#[test]
fn first_replies_that_a_fast_read_keeps_spare() {
    let keeping = |mode, item: usize| {
        let [set, awaited] = [set_of(&[0, 1, 2]), set_of(&[0])];
        let mut client = Client { mode, set, awaited, ..Client::INITIAL };
        client.firsts[item] = Entry::new(STAMP, set_of(&[0, 1]));
        client
    };
    for client in 1..=2 {
        for item in 0..3 {
            spares(|tables| *tables.client_mut(client) = keeping(SECOND_PART, item));
        }
        for item in 1..3 {
            spares(|tables| *tables.client_mut(client) = keeping(FIRST_PART, item));
        }
    }
    let mut asking = keeping(SECOND_PART, 0);
    (asking.firsts, asking.stamps[0]) = ([Entry::INITIAL; 64], STAMP);
    spares_nothing(|tables| *tables.client_mut(2) = asking);
}

#[test]
fn views_and_latest_of_clients_and_items_that_do_not_exist_spare_nothing() {
    let entry = Entry::new(STAMP, set_of(&[0, 1]));
    spares_nothing(|tables| tables.view_mut(3)[0] = entry);
    spares_nothing(|tables| tables.view_mut(1)[3] = entry);
    spares_nothing(|tables| tables.latest[3] = entry);
    spares_nothing(|tables| *tables.client_mut(3) = writing(&[0]));
}

#[test]
fn number_and_client_count_each_with_the_other() {
    leaves(&with(|tables| tables.latest[2] = entry(1, 1, &[2])), &[0]);
    leaves(&with(|tables| tables.view_mut(2)[2] = entry(2, 2, &[2])), &[2]);
    spares_nothing(|tables| tables.view_mut(2)[0] = entry(1, 2, &[0]));
}

#[test]
fn what_stays_keeps_its_order_and_words() {
    let mut before = tables(1, 1, 2);
    before.versions =
        (1..=9).map(|number| version(0, number, Stamp::new(number, 1), &[0])).collect();
    before.messages = [8, 2, 5, 1].map(|number| get(1, 0, Stamp::new(number, 1))).to_vec();
    leaves(&before, &[0, 1, 4, 7]);
}

#[test]
fn of_versions_alike_all_stay_or_go() {
    let alike = version(1, 8, STAMP, &[0, 1]);
    let mut before = with(|tables| tables.latest[0] = entry(2, 1, &[0, 1]));
    before.versions.extend([alike, version(2, 5, Stamp::new(1, 1), &[2]), alike]);
    leaves(&before, &[1, 3, 4, 6]);
}

#[test]
fn what_a_clearing_leaves_has_nothing_to_clear() {
    let before = with(|tables| tables.view_mut(2)[1] = entry(2, 1, &[0, 1]));
    let (_, after, _) = made(&before, Call::Clear);
    leaves(&after, &[0, 1]);
}

/// Client 2 has seen client 1's write of items 0 and 1 on item 0 alone. Both items are written anew
/// and committed, so its version of item 1 is in no view and no latest of item 1: the view's stamp
/// spares it, and a read of item 1 finds it.
#[test]
fn a_sibling_s_view_spares_the_version_that_the_next_read_asks_for() {
    let mut calls = vec![write(1, &[(0, 7), (1, 8)])];
    calls.extend(vec![deliver(0); 6]);
    calls.push(read(2, &[0]));
    calls.extend(vec![deliver(0); 2]);
    calls.push(write(1, &[(0, 9), (1, 10)]));
    calls.extend(vec![deliver(0); 6]);
    calls.extend([Call::Clear, read(2, &[1]), deliver(0)]);
    let mut now = tables(2, 2, 2);
    let mut answers = Vec::new();
    for call in calls {
        let (answer, after, _) = made(&now, call);
        answers.push(answer);
        now = after;
    }
    assert_eq!(answers[answers.len() - 3], Answer::Cleared { gone: 0 });
    let first = version(1, 8, Stamp::new(1, 1), &[0, 1]);
    assert_eq!(now.messages, [got(2, first, entry(2, 1, &[0, 1]))]);
}
