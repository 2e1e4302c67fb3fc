//! Fast reads (document 02, P7): starts, first gets, first replies, and the second part.

use super::{delivered, get, got};
use crate::support::{deliver, entry, made, set_of, start_fast_read, tables, version};
use koolvent_model::answer::Answer;
use koolvent_model::stamp::{Entry, Stamp};
use koolvent_model::store::message::Message;
use koolvent_model::store::tables::{
    Client, Ended, Tables, Version, FAST_READ, FIRST_PART, IDLE, READING, SECOND_PART, WRITING,
};

fn first_get(client: u64, item: u64) -> Message {
    Message::FirstGet { client, item }
}

fn first_reply(client: u64, version: Version, latest: Entry) -> Message {
    Message::FirstReply { client, version, latest }
}

/// Client 2 in the first part of a read of these items, still awaiting those: the first replies of
/// the others have come, with value 9 and these entries.
fn in_first_part(items: &[u64], awaited: &[u64], firsts: &[(u64, Entry)]) -> Tables {
    let mut tables = tables(3, 2, 4);
    let mut client = Client {
        mode: FIRST_PART,
        set: set_of(items),
        awaited: set_of(awaited),
        ..Client::INITIAL
    };
    for (item, first) in firsts {
        client.firsts[*item as usize] = *first;
        client.values[*item as usize] = 9;
    }
    *tables.client_mut(2) = client;
    tables
}

/// The stamps that the second part asks for, by item, and those that it will show, when the last
/// first reply, of this item and entry, comes to a read of items 0, 1, 2 with these first replies.
fn second_part(firsts: &[(u64, Entry)], last: (u64, Entry)) -> (Vec<(u64, Stamp)>, Vec<Stamp>) {
    let before = in_first_part(&[0, 1, 2], &[last.0], firsts);
    let (item, Entry { stamp, set }) = last;
    let version = Version { item, value: 5, stamp, set };
    let (_, after) = delivered(before, first_reply(2, version, last.1));
    let asked = after.messages.iter().map(|message| match *message {
        Message::Get { client: 2, item, stamp } => (item, stamp),
        ref other => panic!("{other:?} is no get of client 2"),
    });
    let client = after.client(2);
    let shown = if client.mode == IDLE { client.last.stamps } else { client.stamps };
    (asked.collect(), shown[..3].to_vec())
}

#[test]
fn a_start_sends_first_gets_ascending_and_asks_for_no_stamp() {
    let mut before = tables(3, 2, 4);
    before.view_mut(2)[1] = entry(3, 1, &[0, 1, 3]);
    before.latest[3] = entry(5, 1, &[3]);
    before.messages = vec![get(1, 0, Stamp::INITIAL)];
    let mut expected = before.clone();
    expected.messages.extend([first_get(2, 0), first_get(2, 1), first_get(2, 3)]);
    let set = set_of(&[0, 1, 3]);
    *expected.client_mut(2) = Client { mode: FIRST_PART, set, awaited: set, ..Client::INITIAL };
    let (answer, after, _) = made(&before, start_fast_read(2, set));
    assert_eq!((answer, after), (Answer::Started { messages: 4 }, expected));
}

#[test]
fn a_first_get_is_answered_with_the_latest_committed_version() {
    let mut before = tables(3, 2, 4);
    before.versions = vec![
        version(0, 6, Stamp::new(2, 1), &[0]),
        version(1, 5, Stamp::new(1, 2), &[1]),
        version(1, 7, Stamp::new(2, 1), &[1, 2]),
        version(1, 9, Stamp::new(2, 1), &[0, 1]),
        version(1, 8, Stamp::new(3, 1), &[1]),
    ];
    // The version's set is the first stored one's, the latest's its own.
    before.latest[1] = entry(2, 1, &[0, 1]);
    before.view_mut(2)[1] = entry(3, 1, &[1]);
    let mut expected = before.clone();
    let reply = version(1, 7, Stamp::new(2, 1), &[1, 2]);
    expected.messages = vec![first_reply(2, reply, entry(2, 1, &[0, 1]))];
    let (answer, after) = delivered(before, first_get(2, 1));
    assert_eq!(answer.bytes(&[]), [0, 6, 0, 1, 0]);
    assert_eq!(after, expected);
}

#[test]
fn a_first_get_of_an_item_that_nobody_committed_is_answered_with_the_initial_version() {
    let mut before = tables(3, 2, 4);
    before.versions = vec![version(1, 5, Stamp::new(1, 2), &[1])];
    let (_, after) = delivered(before, first_get(2, 1));
    let initial = version(1, 0, Stamp::INITIAL, &[]);
    assert_eq!(after.messages, [first_reply(2, initial, Entry::INITIAL)]);
}

#[test]
fn first_gets_are_accepted_whatever_their_client_does() {
    let busy = [READING, WRITING, FIRST_PART, SECOND_PART];
    let modes = busy.map(|mode| [&[0][..], &[1], &[0, 1]].map(|awaited| (mode, awaited)));
    for (mode, awaited) in modes.concat().into_iter().chain([(IDLE, &[][..])]) {
        let mut before = in_first_part(&[0, 1], awaited, &[]);
        before.client_mut(2).mode = mode;
        let (answer, after) = delivered(before.clone(), first_get(2, 0));
        assert_eq!(answer.bytes(&[]), [0, 6, 0, 1, 0]);
        assert_eq!(after.clients, before.clients);
    }
}

/// The view's entry is the latest of three, as with a got; the stamp asked for stays.
#[test]
fn a_first_reply_that_is_not_the_last_is_kept_and_seen() {
    let own = entry(2, 1, &[1]);
    for (latest, stamp, seen) in [
        (entry(4, 2, &[1]), Stamp::new(3, 1), entry(4, 2, &[1])),
        (entry(1, 1, &[1]), Stamp::new(3, 1), entry(3, 1, &[0, 1])),
        (entry(1, 1, &[1]), Stamp::new(1, 3), own),
        (entry(2, 1, &[1, 2]), Stamp::new(2, 1), own),
    ] {
        let mut before = in_first_part(&[0, 1], &[0, 1], &[]);
        before.view_mut(2)[1] = own;
        let mut expected = before.clone();
        expected.view_mut(2)[1] = seen;
        let client = expected.client_mut(2);
        client.awaited = set_of(&[0]);
        client.values[1] = 8;
        client.firsts[1] = Entry::new(stamp, set_of(&[0, 1]));
        let reply = Version { item: 1, value: 8, stamp, set: set_of(&[0, 1]) };
        let (answer, after) = delivered(before, first_reply(2, reply, latest));
        assert_eq!(answer.bytes(&[]), [0, 7, 0, 0, 0]);
        assert_eq!(after, expected);
    }
}

#[test]
fn the_last_first_reply_ends_the_read_where_no_item_is_older_than_a_sibling_shows() {
    let mut before = in_first_part(&[0, 1], &[1], &[(0, entry(3, 1, &[0, 1]))]);
    let mut expected = before.clone();
    let mut last = Ended { kind: FAST_READ, set: set_of(&[0, 1]), ..Ended::NONE };
    last.stamps[..2].fill(Stamp::new(3, 1));
    last.values[..2].copy_from_slice(&[9, 8]);
    *expected.client_mut(2) = Client { count: 4, last, ..Client::INITIAL };
    before.client_mut(2).count = 4;
    expected.view_mut(2)[1] = entry(3, 1, &[0, 1]);
    let reply = version(1, 8, Stamp::new(3, 1), &[0, 1]);
    let (answer, after) = delivered(before, first_reply(2, reply, entry(3, 1, &[0, 1])));
    assert_eq!(answer.bytes(&[]), [0, 7, 0, 0, 1]);
    assert_eq!(after, expected);
}

/// Items 0 and 1 are older than item 3's first reply shows, which also wrote item 2, of which the
/// read knows nothing.
#[test]
fn items_found_older_are_asked_for_by_the_sibling_s_stamp_and_awaited_again() {
    let firsts = [(0, entry(1, 1, &[0, 1])), (1, Entry::INITIAL)];
    let mut before = in_first_part(&[0, 1, 3], &[3], &firsts);
    before.view_mut(2)[0] = entry(9, 3, &[0, 1, 2, 3]);
    let newest = entry(2, 1, &[0, 1, 2, 3]);
    let mut expected = before.clone();
    let client = expected.client_mut(2);
    client.mode = SECOND_PART;
    client.awaited = set_of(&[0, 1]);
    client.firsts[3] = newest;
    client.values[3] = 8;
    for item in [0, 1, 3] {
        client.stamps[item] = newest.stamp;
    }
    expected.view_mut(2)[3] = newest;
    expected.messages = vec![get(2, 0, newest.stamp), get(2, 1, newest.stamp)];
    let reply = version(3, 8, newest.stamp, &[0, 1, 2, 3]);
    let (answer, after) = delivered(before, first_reply(2, reply, newest));
    assert_eq!(answer.bytes(&[]), [0, 7, 0, 2, 0]);
    assert_eq!(after, expected);
}

#[test]
fn of_several_siblings_the_latest_stamp_is_asked_for() {
    let asked = second_part(
        &[(0, entry(2, 1, &[0, 1])), (1, entry(1, 3, &[1]))],
        (2, entry(2, 3, &[1, 2])),
    );
    let [first, second] = [Stamp::new(2, 1), Stamp::new(2, 3)];
    assert_eq!(asked, (vec![(1, second)], vec![first, second, second]));
}

/// Of the greater number, though of the smaller client.
#[test]
fn a_sibling_s_greater_number_is_asked_for_whatever_its_client() {
    let own = entry(1, 3, &[1]);
    let sibling = Stamp::new(2, 1);
    let asked = second_part(&[(0, entry(2, 1, &[0, 1])), (1, own)], (2, Entry::INITIAL));
    assert_eq!(asked, (vec![(1, sibling)], vec![sibling, sibling, Stamp::INITIAL]));
}

#[test]
fn an_item_as_late_as_or_later_than_its_siblings_is_not_fetched_again() {
    for own in [entry(2, 1, &[0, 1]), entry(2, 2, &[1]), entry(3, 1, &[1])] {
        let stamps = vec![Stamp::new(2, 1), own.stamp, Stamp::INITIAL];
        let asked = second_part(&[(0, entry(2, 1, &[0, 1])), (1, own)], (2, Entry::INITIAL));
        assert_eq!(asked, (vec![], stamps));
    }
}

#[test]
fn an_item_that_no_sibling_s_set_has_is_not_fetched_again() {
    let asked =
        second_part(&[(0, entry(9, 1, &[0, 2])), (1, Entry::INITIAL)], (2, entry(1, 1, &[2])));
    let newest = Stamp::new(9, 1);
    assert_eq!(asked, (vec![(2, newest)], vec![newest, Stamp::INITIAL, newest]));
}

/// On a damaged block a version's set may lack its item: its own stamp counts for it all the same.
#[test]
fn a_first_reply_whose_set_lacks_its_item_counts_for_its_item_too() {
    let firsts = [(0, entry(3, 1, &[1])), (1, entry(3, 1, &[]))];
    let asked = second_part(&firsts, (2, entry(2, 1, &[0])));
    let stamps = vec![Stamp::new(3, 1), Stamp::new(3, 1), Stamp::new(2, 1)];
    assert_eq!(asked, (vec![], stamps));
}

/// Client 2 fetches items 0 and 1 of (2, 1) again, still awaiting these.
fn in_second_part(awaited: &[u64]) -> Tables {
    let newest = entry(2, 1, &[0, 1, 3]);
    let firsts = [(0, Entry::INITIAL), (1, entry(1, 1, &[1])), (3, newest)];
    let mut tables = in_first_part(&[0, 1, 3], awaited, &firsts);
    let client = tables.client_mut(2);
    client.mode = SECOND_PART;
    for item in [0, 1, 3] {
        client.stamps[item] = newest.stamp;
    }
    tables
}

#[test]
fn a_got_of_the_second_part_is_kept_and_seen_as_of_any_read() {
    let before = in_second_part(&[0, 1]);
    let mut expected = before.clone();
    expected.client_mut(2).awaited = set_of(&[0]);
    expected.client_mut(2).values[1] = 6;
    expected.view_mut(2)[1] = entry(4, 3, &[1]);
    let reply = version(1, 6, Stamp::new(2, 1), &[0, 1, 3]);
    let (answer, after) = delivered(before, got(2, reply, entry(4, 3, &[1])));
    assert_eq!(answer.bytes(&[]), [0, 5, 0, 0, 0]);
    assert_eq!(after, expected);
}

#[test]
fn the_last_got_ends_the_read_which_shows_each_item_s_last_reply() {
    let before = in_second_part(&[1]);
    let mut expected = before.clone();
    let mut last = Ended { kind: FAST_READ, set: set_of(&[0, 1, 3]), ..Ended::NONE };
    for (item, value) in [(0, 9), (1, 6), (3, 9)] {
        last.stamps[item] = Stamp::new(2, 1);
        last.values[item] = value;
    }
    *expected.client_mut(2) = Client { last, ..Client::INITIAL };
    expected.view_mut(2)[1] = entry(2, 1, &[0, 1, 3]);
    let reply = version(1, 6, Stamp::new(2, 1), &[0, 1, 3]);
    let (answer, after) = delivered(before, got(2, reply, Entry::INITIAL));
    assert_eq!(answer.bytes(&[]), [0, 5, 0, 0, 1]);
    assert_eq!(after, expected);
}

/// There is no third part: on a damaged block a got's set may show another item older.
#[test]
fn the_last_got_ends_the_read_whatever_its_set_shows() {
    let mut before = in_second_part(&[1]);
    before.client_mut(2).stamps[0] = Stamp::new(1, 1);
    let reply = version(1, 6, Stamp::new(2, 1), &[0, 1]);
    let (answer, after) = delivered(before, got(2, reply, Entry::INITIAL));
    assert_eq!(answer.bytes(&[]), [0, 5, 0, 0, 1]);
    assert_eq!(after.client(2).last.stamps[..2], [Stamp::new(1, 1), Stamp::new(2, 1)]);
}

/// The messages that were there stay before the gets of the second part.
#[test]
fn second_gets_join_at_the_end() {
    let mut before = in_first_part(&[0, 1], &[0], &[(1, Entry::INITIAL)]);
    let newest = entry(2, 1, &[0, 1]);
    let reply = first_reply(2, version(0, 5, newest.stamp, &[0, 1]), newest);
    let others = [get(1, 0, Stamp::INITIAL), first_get(3, 1)];
    before.messages = vec![others[0], reply, others[1]];
    let (answer, after, _) = made(&before, deliver(1));
    assert_eq!(answer, Answer::Delivered { kind: 7, messages: 3, outcome: 0 });
    assert_eq!(after.messages, [others[0], others[1], get(2, 1, newest.stamp)]);
}
