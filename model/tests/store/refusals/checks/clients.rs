//! Rules 5 to 8: values of replies, counts, and writes under way.

use super::{
    breaks, ended, first_reply, passes, ENDED, FIRST_GET, FIRST_REPLY, GET_AGAIN, GOT, MIXED,
    MIXED_GOT, MIXED_PREPARE, PREPARE, PREPARED, UNDER_WAY,
};
use crate::support::{entry, set_of, version};
use koolvent_model::stamp::{Entry, Stamp};
use koolvent_model::store::message::Message;
use koolvent_model::store::tables::{Ended, MIXED as MIXED_KIND, WRITE};

#[test]
fn a_reply_in_flight_holds_its_version_s_value() {
    breaks(5, |tables| {
        let version = version(1, 7, ENDED, &[0, 1]);
        tables.messages[GOT] = Message::Got { client: 2, version, latest: ended() };
    });
    breaks(5, |tables| {
        let version = version(0, 8, ENDED, &[0, 1]);
        tables.messages[FIRST_REPLY] = first_reply(3, version, ended());
    });
    breaks(5, |tables| {
        let version = version(3, 1, Stamp::INITIAL, &[]);
        tables.messages[FIRST_GET] = first_reply(3, version, Entry::INITIAL);
    });
    breaks(5, |tables| {
        tables.client_mut(4).stamps[0] = Stamp::INITIAL;
        let version = version(0, 7, Stamp::INITIAL, &[]);
        tables.messages[MIXED_GOT] = Message::Got { client: 4, version, latest: ended() };
    });
}

/// In the first part; in the second of an item that isn't fetched again, and of one whose second
/// answer hasn't come.
#[test]
fn a_first_reply_that_is_kept_holds_its_version_s_value() {
    breaks(5, |tables| tables.client_mut(3).values[1] = 7);
    breaks(5, |tables| tables.client_mut(5).values[0] = 8);
    breaks(5, |tables| tables.client_mut(5).values[1] = 8);
}

/// Items 1 and 2 were fetched again; of item 1 the second answer has come, and its value is there.
#[test]
fn a_second_answer_takes_the_first_reply_s_place() {
    passes(|tables| {
        let record = tables.client_mut(5);
        (record.set, record.awaited) = (set_of(&[0, 1, 2]), set_of(&[2]));
        record.values[1] = 8;
        tables.messages.remove(GET_AGAIN);
        tables.messages.push(Message::Get { client: 5, item: 2, stamp: Stamp::INITIAL });
    });
}

#[test]
fn no_number_is_above_its_client_s_count() {
    for stored in [version(3, 1, Stamp::new(4, 2), &[3]), version(3, 1, Stamp::new(1, 3), &[2, 3])]
    {
        breaks(6, |tables| tables.versions.push(stored));
    }
    breaks(6, |tables| tables.client_mut(2).count = 2);
    for kind in [WRITE, MIXED_KIND] {
        let stamp = Stamp::new(1, 5);
        let last = Ended { kind, set: 1, write_set: 1, stamp, ..Ended::NONE };
        breaks(6, |tables| tables.client_mut(5).last = last);
    }
    breaks(6, |tables| {
        tables.versions.push(version(3, 1, Stamp::new(1, 3), &[3]));
        tables.view_mut(2)[3] = entry(1, 3, &[3]);
    });
}

#[test]
fn a_write_under_way_has_its_client_s_count() {
    breaks(7, |tables| tables.client_mut(1).count = 3);
    breaks(7, |tables| tables.client_mut(4).count = 5);
}

/// Client 5 has written twice, and the stamp is its second everywhere; or four times, and the stamp
/// is that of client 4's mixed transaction, whose write has arrived.
#[test]
fn a_write_under_way_has_its_own_client() {
    breaks(7, |tables| {
        let others = Stamp::new(4, 5);
        tables.client_mut(5).count = 4;
        let write = &mut tables.client_mut(4).write;
        (write.stamp, write.awaited) = (others, 0);
        tables.versions.push(version(3, 9, others, &[3]));
        tables.messages.remove(MIXED_PREPARE);
    });
    breaks(7, |tables| {
        let others = Stamp::new(2, 5);
        tables.client_mut(5).count = 2;
        tables.client_mut(1).stamps[1..3].fill(others);
        tables.versions[2].stamp = others;
        tables.messages[PREPARE] = Message::Prepare(version(2, 6, others, &[1, 2]));
        tables.messages[PREPARED] = Message::Prepared { item: 1, stamp: others };
    });
}

#[test]
fn an_item_no_longer_awaited_is_stored() {
    breaks(8, |tables| {
        tables.client_mut(1).awaited = set_of(&[1]);
        tables.messages.remove(PREPARE);
    });
    breaks(8, |tables| {
        tables.client_mut(4).write.awaited = 0;
        tables.messages.remove(MIXED_PREPARE);
    });
}

#[test]
fn an_item_with_a_prepared_reply_is_stored() {
    breaks(8, |tables| {
        tables.messages[PREPARE] = Message::Prepared { item: 2, stamp: UNDER_WAY };
    });
    breaks(8, |tables| {
        tables.messages[MIXED_PREPARE] = Message::Prepared { item: 3, stamp: MIXED };
    });
    breaks(8, |tables| {
        tables.versions.remove(2);
    });
}

#[test]
fn what_is_stored_of_a_write_under_way_has_its_values() {
    breaks(8, |tables| tables.versions[2].value = 6);
    breaks(8, |tables| {
        tables.client_mut(4).write.awaited = 0;
        tables.messages.remove(MIXED_PREPARE);
        tables.versions.push(version(3, 8, MIXED, &[3]));
    });
    passes(|tables| {
        tables.client_mut(4).write.awaited = 0;
        tables.messages.remove(MIXED_PREPARE);
        tables.versions.push(version(3, 9, MIXED, &[3]));
    });
}
