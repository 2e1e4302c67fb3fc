//! 1 is tested before 19, and nothing else is a ground.

use super::{accepted, busy, refused};
use crate::support::{deliver, made, tables, tables_with_versions, version};
use koolvent_model::answer::Answer;
use koolvent_model::call::Call;
use koolvent_model::stamp::Stamp;
use koolvent_model::store::message::Message;
use koolvent_model::store::tables::{Sizes, Tables};

#[test]
fn tables_out_of_range_are_1_whatever_rules_they_break() {
    refused(&Tables::default(), 1, Call::Check);
    let mut damaged = busy();
    damaged.client_mut(2).mode = 9;
    refused(&damaged, 1, Call::Check);
    let mut damaged = busy();
    damaged.versions.push(version(0, 1, Stamp::INITIAL, &[0]));
    damaged.messages.clear();
    refused(&damaged, 1, Call::Check);
}

#[test]
fn a_load_or_versions_over_their_capacity_are_1() {
    let get = Message::Get { client: 1, item: 0, stamp: Stamp::INITIAL };
    let mut full = tables(1, 1, 1);
    full.messages = vec![get; 128];
    refused(&full, 19, Call::Check);
    full.messages.push(get);
    refused(&full, 1, Call::Check);
    let sizes = Sizes::new(1, 1, 1);
    let mut full = tables_with_versions(sizes, 512);
    refused(&full, 19, Call::Check);
    full.client_mut(1).count = 512;
    accepted(&full, Call::Check);
    let mut fuller = tables_with_versions(sizes, 513);
    fuller.client_mut(1).count = 513;
    refused(&fuller, 1, Call::Check);
}

/// Nothing changes, whoever is busy, and a fresh block is accepted.
#[test]
fn an_accepted_check_changes_nothing() {
    for before in [busy(), tables(8, 8, 64), tables(1, 1, 1)] {
        let (answer, after, output) = made(&before, Call::Check);
        assert_eq!((answer, after, output), (Answer::Checked, before, Vec::new()));
    }
}

/// Every delivery is accepted, in any order, and every block on the way.
#[test]
fn from_accepted_tables_every_delivery_is_accepted() {
    for last in [false, true] {
        let mut now = busy();
        while !now.messages.is_empty() {
            let place = if last { now.messages.len() - 1 } else { 0 };
            let (answer, after, _) = made(&now, deliver(place as u64));
            assert!(matches!(answer, Answer::Delivered { .. }), "{answer:?}");
            accepted(&after, Call::Check);
            now = after;
        }
    }
}
