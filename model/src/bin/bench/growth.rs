//! What a call costs against the number of stored versions, of messages and of items: the start of
//! a read.

use crate::call::{rows, Row};
use crate::cases::{read, Case};
use crate::session::{first_items, Session};
use koolvent_model::store::message::PREPARE;
use koolvent_model::store::tables::WIDEST_WRITE;

/// A point of a curve: how many there are, and what the call costs.
pub struct Point {
    pub count: u64,
    pub row: Row,
}

fn points(cases: Vec<(u64, Case)>) -> Vec<Point> {
    let (counts, cases): (Vec<u64>, Vec<Case>) = cases.into_iter().unzip();
    let points = counts.into_iter().zip(rows(&cases));
    points.map(|(count, row)| Point { count, row }).collect()
}

/// 0 to 512 versions of 64 items, no messages.
pub fn versions() -> Vec<Point> {
    let mut session = Session::fresh(8, 8, 64);
    let mut cases = Vec::new();
    for count in (0..=512).step_by(64) {
        if count > 0 {
            session.write_first(1, 64);
        }
        assert_eq!(session.tables().versions.len() as u64, count);
        cases.push((count, read("versions", &session, 8, 0b1111)));
    }
    points(cases)
}

/// 0 to 120 messages: as many prepares as prepared replies, of three writes each, and gets; up to
/// 36 versions of 64 items.
pub fn messages() -> Vec<Point> {
    let mut cases = Vec::new();
    for count in (0..=120).step_by(15) {
        let mut session = Session::fresh(8, 8, 64);
        if count > 0 {
            let written = (count / 9).min(WIDEST_WRITE);
            for client in 1..=6 {
                session.start_write(client, first_items(written));
            }
            for client in 4..=6 {
                session.deliver(PREPARE, client, written as u32);
            }
            session.start_read(7, first_items(count - 6 * written));
        }
        assert_eq!(session.tables().messages.len() as u64, count);
        cases.push((count, read("messages", &session, 8, 0b1111)));
    }
    points(cases)
}

/// 1 to 64 items, each written once; the read is of them all.
pub fn items() -> Vec<Point> {
    let mut cases = Vec::new();
    for count in [1, 8, 16, 24, 32, 40, 48, 56, 64] {
        let mut session = Session::fresh(8, 8, count);
        session.write_first(1, count);
        cases.push((count, read("items", &session, 8, first_items(count))));
    }
    points(cases)
}
