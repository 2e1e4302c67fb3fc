//! Rules 1 to 4: stamps that are named, their items and sets, and stored versions.

use super::{
    breaks, breaks_all, ended, first_reply, initial, written, COMMIT, ENDED, FIRST_GET,
    FIRST_REPLY, GOT, MIXED_GOT, PREPARE, UNDER_WAY,
};
use crate::support::{entry, set_of, version};
use koolvent_model::stamp::{Entry, Stamp};
use koolvent_model::store::message::Message;
use koolvent_model::store::tables::{Ended, Tables, MIXED as MIXED_KIND, WRITE};

fn under_way() -> Entry {
    entry(2, 1, &[1, 2])
}

/// Client 2 asks for the write under way at item 1, and this is its message.
fn asking_at_1(tables: &mut Tables, message: Message) {
    tables.client_mut(2).stamps[1] = UNDER_WAY;
    tables.messages[GOT] = message;
}

#[test]
fn a_stamp_with_a_version_missing_is_in_no_view_and_no_latest() {
    for client in 1..=5 {
        breaks(1, |tables| tables.view_mut(client)[1] = under_way());
    }
    breaks(1, |tables| tables.latest[2] = under_way());
}

#[test]
fn nor_in_a_commit_a_get_or_a_got() {
    breaks(1, |tables| {
        tables.messages[COMMIT] = Message::Commit { partition: 0, stamp: UNDER_WAY };
    });
    breaks(1, |tables| {
        asking_at_1(tables, Message::Get { client: 2, item: 1, stamp: UNDER_WAY });
    });
    breaks(1, |tables| {
        let version = version(1, 5, UNDER_WAY, &[1, 2]);
        asking_at_1(tables, Message::Got { client: 2, version, latest: ended() });
    });
    breaks(1, |tables| {
        let got = Message::Got { client: 2, version: written(1), latest: under_way() };
        tables.messages[GOT] = got;
    });
}

#[test]
fn nor_in_a_first_reply_in_flight_or_kept() {
    breaks(1, |tables| {
        tables.client_mut(3).set = set_of(&[0, 1, 2]);
        tables.client_mut(3).awaited = set_of(&[0, 2]);
        tables.messages[FIRST_GET] = first_reply(3, initial(2), under_way());
    });
    breaks(1, |tables| {
        tables.client_mut(3).set = set_of(&[0, 1]);
        tables.client_mut(3).awaited = set_of(&[1]);
        tables.client_mut(3).firsts[0] = ended();
        tables.client_mut(3).values[0] = 7;
        tables.client_mut(3).firsts[1] = Entry::INITIAL;
        let version = version(1, 5, UNDER_WAY, &[1, 2]);
        tables.messages[FIRST_REPLY] = first_reply(3, version, ended());
        tables.messages.remove(FIRST_GET);
    });
    breaks(1, |tables| {
        tables.client_mut(3).firsts[1] = under_way();
        tables.client_mut(3).values[1] = 5;
    });
    breaks(1, |tables| {
        tables.client_mut(5).firsts[1] = under_way();
        tables.client_mut(5).values[1] = 5;
    });
}

/// Of client 2's last write nothing is stored; of a number that it skipped, nothing is known.
#[test]
fn a_stamp_of_which_nothing_is_stored_is_not_whole() {
    for stamp in [Stamp::new(3, 2), Stamp::new(2, 2)] {
        breaks(1, |tables| {
            tables.messages[COMMIT] = Message::Commit { partition: 0, stamp };
        });
    }
    breaks(1, |tables| tables.view_mut(3)[0] = entry(3, 2, &[0]));
}

#[test]
fn an_entry_s_write_wrote_its_item() {
    breaks(2, |tables| tables.view_mut(3)[2] = ended());
    breaks(2, |tables| tables.latest[3] = ended());
    breaks(2, |tables| {
        let record = tables.client_mut(3);
        record.set = set_of(&[0, 1, 2, 3]);
        record.firsts[2] = ended();
    });
    breaks(2, |tables| {
        let record = tables.client_mut(2);
        record.stamps[2] = ENDED;
        (record.set, record.awaited) = (set_of(&[0, 1, 2]), set_of(&[0, 1, 2]));
        tables.messages.push(Message::Get { client: 2, item: 2, stamp: ENDED });
    });
    breaks(2, |tables| tables.messages[FIRST_GET] = first_reply(3, initial(3), ended()));
}

/// In a first reply that a second part keeps, and in the version or the latest of a reply; item 2's
/// version of the ended write would have the value that none has.
#[test]
fn so_did_the_write_of_a_kept_first_reply_and_of_a_reply_in_flight() {
    breaks(2, |tables| {
        let record = tables.client_mut(5);
        record.set = set_of(&[0, 1, 2]);
        (record.firsts[2], record.stamps[2]) = (ended(), ENDED);
    });
    breaks(2, |tables| {
        tables.messages[FIRST_GET] = first_reply(3, version(3, 0, ENDED, &[0, 1]), Entry::INITIAL);
    });
    let [stored, unknown] = [ENDED, Stamp::INITIAL];
    for (asked, version, latest) in
        [(stored, version(2, 0, ENDED, &[0, 1]), Entry::INITIAL), (unknown, initial(2), ended())]
    {
        breaks(2, |tables| {
            let record = tables.client_mut(2);
            record.stamps[2] = asked;
            (record.set, record.awaited) = (set_of(&[0, 1, 2]), set_of(&[0, 1, 2]));
            tables.messages.push(Message::Got { client: 2, version, latest });
        });
    }
}

#[test]
fn copies_of_a_set_in_entries_agree() {
    breaks(3, |tables| tables.view_mut(2)[0] = entry(1, 1, &[0]));
    breaks(3, |tables| tables.latest[1] = entry(1, 1, &[0, 1, 2]));
    breaks(3, |tables| tables.client_mut(3).firsts[1] = entry(1, 1, &[1]));
    breaks(3, |tables| tables.client_mut(5).firsts[0] = entry(1, 1, &[0]));
}

#[test]
fn copies_of_a_set_in_messages_agree() {
    let narrow = entry(1, 1, &[0]);
    let [of_1, of_0] = [version(1, 8, ENDED, &[1]), version(0, 7, ENDED, &[0])];
    for got in [
        Message::Got { client: 2, version: of_1, latest: ended() },
        Message::Got { client: 2, version: written(1), latest: entry(1, 1, &[1]) },
    ] {
        breaks(3, |tables| tables.messages[GOT] = got);
    }
    for reply in [first_reply(3, of_0, ended()), first_reply(3, written(0), narrow)] {
        breaks(3, |tables| tables.messages[FIRST_REPLY] = reply);
    }
}

/// The write's versions are stored as of items 1 and 2, its prepare and its client's record say so
/// too, or not.
#[test]
fn copies_of_a_set_that_is_written_agree() {
    breaks(3, |tables| tables.versions[2].set = set_of(&[1]));
    breaks(3, |tables| tables.versions[1].set = set_of(&[0, 1, 3]));
    breaks(3, |tables| {
        let other = set_of(&[1, 2, 3]);
        tables.versions[2].set = other;
        tables.versions.push(version(2, 6, UNDER_WAY, &[1, 2, 3]));
        tables.messages[PREPARE] = Message::Prepared { item: 2, stamp: UNDER_WAY };
    });
    for (kind, of) in [(WRITE, 1), (WRITE, 3), (MIXED_KIND, 4)] {
        let set = set_of(&[0, 2]);
        let last = Ended { kind, set, write_set: set, stamp: ENDED, ..Ended::NONE };
        breaks(3, |tables| tables.client_mut(of).last = last);
    }
}

/// A prepare's set is a copy, and what fits its client's write.
#[test]
fn a_prepare_with_another_set_breaks_two_rules() {
    breaks_all(&[3, 9], |tables| {
        tables.messages[PREPARE] = Message::Prepare(version(2, 6, UNDER_WAY, &[2]));
    });
}

#[test]
fn the_initial_stamp_has_the_empty_set() {
    let odd = Entry::new(Stamp::INITIAL, 1);
    breaks(3, |tables| tables.view_mut(3)[0] = odd);
    breaks(3, |tables| tables.latest[3] = Entry::new(Stamp::INITIAL, set_of(&[3])));
    breaks(3, |tables| tables.client_mut(5).firsts[1] = odd);
    breaks(3, |tables| {
        let got = Message::Got { client: 4, version: written(0), latest: odd };
        tables.messages[MIXED_GOT] = got;
    });
    breaks(3, |tables| {
        let last = Ended { kind: WRITE, set: 1, ..Ended::NONE };
        tables.client_mut(3).last = last;
    });
}

/// Whatever their values; the first counts.
#[test]
fn no_two_versions_are_alike() {
    breaks(4, |tables| tables.versions.push(written(0)));
    breaks(4, |tables| tables.versions.push(version(0, 9, ENDED, &[0, 1])));
    breaks(4, |tables| tables.versions.push(version(1, 5, UNDER_WAY, &[1, 2])));
}
