//! Rule 9: each awaited item has exactly one message, which fits, and every other is a commit.

use super::{
    breaks, ended, first_reply, initial, passes, written, COMMIT, ENDED, FIRST_GET, FIRST_REPLY,
    GET, GET_AGAIN, GOT, MIXED, MIXED_GOT, MIXED_PREPARE, PREPARE, PREPARED, UNDER_WAY,
};
use crate::support::{set_of, version};
use koolvent_model::stamp::{Entry, Stamp};
use koolvent_model::store::message::Message;
use koolvent_model::store::tables::{Client, Ended, WRITE};

const AWAITED: [usize; 9] =
    [PREPARE, PREPARED, GET, GOT, FIRST_REPLY, FIRST_GET, GET_AGAIN, MIXED_GOT, MIXED_PREPARE];

#[test]
fn no_message_is_lost_or_comes_twice() {
    for place in AWAITED {
        breaks(9, |tables| {
            tables.messages.remove(place);
        });
        breaks(9, |tables| tables.messages.push(tables.messages[place]));
    }
}

/// A get and its got, and a first get and its first reply.
#[test]
fn no_item_has_a_request_and_a_reply() {
    breaks(9, |tables| {
        let got = Message::Got { client: 2, version: written(0), latest: ended() };
        tables.messages.push(got);
    });
    breaks(9, |tables| {
        tables.messages.push(first_reply(3, initial(3), Entry::INITIAL));
    });
    breaks(9, |tables| {
        tables.messages.push(Message::FirstGet { client: 3, item: 0 });
    });
}

/// Client 2 awaits item 0 no more, or is idle.
#[test]
fn no_message_comes_that_is_not_awaited() {
    breaks(9, |tables| tables.client_mut(2).awaited = set_of(&[1]));
    breaks(9, |tables| *tables.client_mut(2) = Client::resting(3, tables.client(2).last));
    breaks(9, |tables| {
        tables.messages.push(Message::Get { client: 2, item: 3, stamp: Stamp::INITIAL });
    });
    breaks(9, |tables| {
        tables.messages.push(Message::FirstGet { client: 2, item: 3 });
    });
    breaks(9, |tables| {
        tables.messages.push(Message::Prepared { item: 0, stamp: ENDED });
    });
}

#[test]
fn a_get_or_got_has_the_stamp_asked_for() {
    breaks(9, |tables| tables.client_mut(2).stamps[0] = Stamp::INITIAL);
    breaks(9, |tables| tables.client_mut(2).stamps[1] = Stamp::INITIAL);
    breaks(9, |tables| {
        tables.messages[GET] = Message::Get { client: 2, item: 0, stamp: Stamp::INITIAL };
    });
    breaks(9, |tables| {
        tables.messages[MIXED_GOT] =
            Message::Got { client: 4, version: initial(0), latest: ended() };
    });
}

#[test]
fn gets_and_gots_do_not_come_to_a_first_part_and_first_ones_to_no_other() {
    breaks(9, |tables| {
        tables.messages[FIRST_GET] = Message::Get { client: 3, item: 3, stamp: Stamp::INITIAL };
    });
    breaks(9, |tables| {
        tables.messages[FIRST_GET] =
            Message::Got { client: 3, version: initial(3), latest: Entry::INITIAL };
    });
    for (place, client, item) in [(GET, 2, 0), (GET_AGAIN, 5, 1), (MIXED_GOT, 4, 0)] {
        breaks(9, |tables| tables.messages[place] = Message::FirstGet { client, item });
        breaks(9, |tables| {
            tables.messages[place] = first_reply(client, written(item), ended());
        });
    }
}

/// Client 4's last write, of item 3 too, has been cleared away: its prepare is no copy of the one
/// under way. Or client 1's write under way is its third, and the prepare its second's, of which
/// nothing is stored.
#[test]
fn a_prepare_has_the_write_s_stamp() {
    breaks(9, |tables| {
        let third = Stamp::new(3, 1);
        tables.client_mut(1).count = 3;
        tables.client_mut(1).stamps[1..3].fill(third);
        tables.versions[2].stamp = third;
        tables.messages[PREPARED] = Message::Prepared { item: 1, stamp: third };
    });
    breaks(9, |tables| {
        let (set, stamp) = (set_of(&[3]), Stamp::new(3, 4));
        tables.client_mut(4).last = Ended { kind: WRITE, set, stamp, ..Ended::NONE };
        tables.messages[MIXED_PREPARE] = Message::Prepare(version(3, 9, stamp, &[3]));
    });
}

/// Instead of the prepare of item 2 as client 1 writes it.
#[test]
fn a_prepare_has_the_write_s_value_and_a_prepared_reply_its_stamp() {
    breaks(9, |tables| {
        tables.messages[PREPARE] = Message::Prepare(version(2, 5, UNDER_WAY, &[1, 2]));
    });
    breaks(9, |tables| {
        tables.messages[PREPARED] = Message::Prepared { item: 1, stamp: ENDED };
    });
    breaks(9, |tables| {
        tables.versions.push(version(3, 9, MIXED, &[3]));
    });
}

/// Client 1's own message, of a write that it has ended, in place of one of client 2's read.
#[test]
fn a_message_is_of_its_own_part() {
    breaks(9, |tables| {
        tables.messages[GET] = Message::Prepared { item: 0, stamp: ENDED };
    });
    breaks(9, |tables| {
        tables.messages[PREPARED] = Message::Get { client: 1, item: 1, stamp: ENDED };
    });
}

#[test]
fn commits_may_be_lost_come_twice_and_go_anywhere() {
    passes(|tables| {
        tables.messages.remove(COMMIT);
    });
    passes(|tables| {
        let commit = |partition| Message::Commit { partition, stamp: ENDED };
        tables.messages.extend([commit(0), commit(1), commit(1)]);
    });
    passes(|tables| tables.messages.reverse());
}

/// A whole write of item 3, which lies at one partition.
#[test]
fn a_commit_may_go_to_a_partition_that_its_write_does_not_touch() {
    for partition in [0, 1] {
        passes(|tables| {
            let stamp = Stamp::new(2, 2);
            tables.versions.push(version(3, 1, stamp, &[3]));
            tables.messages.push(Message::Commit { partition, stamp });
        });
    }
}
