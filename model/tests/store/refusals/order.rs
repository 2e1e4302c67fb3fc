//! Where several refusals apply, the first in the table is returned.

use super::refused;
use crate::support::{deliver, entry, show_in, start_read, start_write, tables_with_versions};
use koolvent_model::stamp::{Entry, Stamp};
use koolvent_model::store::message::Message;
use koolvent_model::store::tables::{Ended, Sizes, Tables, READ, READING};

/// Tables of thirteen items on which every refusal of a start applies to client 1 and the empty
/// set, and to client 9.
fn everything_amiss() -> Tables {
    let mut tables = tables_with_versions(Sizes::new(2, 2, 13), 512);
    tables.client_mut(1).count = 4_294_967_295;
    tables.client_mut(1).mode = READING;
    tables.client_mut(1).set = 1;
    tables.client_mut(1).awaited = 1;
    let get = Message::Get { client: 1, item: 0, stamp: Stamp::INITIAL };
    tables.messages = vec![get; 128];
    tables
}

fn idle(mut tables: Tables) -> Tables {
    tables.client_mut(1).mode = 0;
    tables.client_mut(1).awaited = 0;
    tables
}

#[test]
fn a_write_is_tested_1_3_4_5_6_17_7_8_9() {
    let (thirteen, fourteen) = ((1 << 13) - 1, (1 << 14) - 1);
    let mut damaged = everything_amiss();
    damaged.messages.push(damaged.messages[0]);
    refused(&damaged, 1, start_write(9, 0, &[0]));
    let mut tables = everything_amiss();
    refused(&tables, 3, start_write(9, 0, &[0]));
    refused(&tables, 4, start_write(1, 0, &[0]));
    tables = idle(tables);
    refused(&tables, 5, start_write(1, 0, &[0]));
    refused(&tables, 5, start_write(1, fourteen, &[0; 56]));
    refused(&tables, 6, start_write(1, thirteen, &[0; 48]));
    refused(&tables, 17, start_write(1, thirteen, &[0; 52]));
    refused(&tables, 7, start_write(1, 1, &[0; 4]));
    tables.client_mut(1).count = 5;
    tables.view_mut(1)[1] = entry(4_294_967_295, 2, &[1]);
    refused(&tables, 17, start_write(1, thirteen, &[0; 52]));
    refused(&tables, 7, start_write(1, 1, &[0; 4]));
    tables.view_mut(1)[1] = Entry::INITIAL;
    refused(&tables, 17, start_write(1, thirteen, &[0; 52]));
    refused(&tables, 8, start_write(1, 1, &[0; 4]));
    tables.messages.pop();
    refused(&tables, 9, start_write(1, 1, &[0; 4]));
}

#[test]
fn a_read_is_tested_1_3_4_5_8() {
    let mut damaged = everything_amiss();
    damaged.sizes.items = 0;
    refused(&damaged, 1, start_read(9, 0));
    let tables = everything_amiss();
    refused(&tables, 3, start_read(9, 0));
    refused(&tables, 4, start_read(1, 0));
    let tables = idle(tables);
    refused(&tables, 5, start_read(1, 0));
    refused(&tables, 8, start_read(1, 1));
}

#[test]
fn a_showing_is_tested_1_3_4_13_14() {
    let mut damaged = everything_amiss();
    damaged.client_mut(2).mode = 3;
    refused(&damaged, 1, show_in(9, &[]));
    let tables = everything_amiss();
    refused(&tables, 3, show_in(9, &[]));
    refused(&tables, 4, show_in(1, &[]));
    let mut tables = idle(tables);
    refused(&tables, 13, show_in(1, &[]));
    tables.client_mut(1).last = Ended { kind: READ, set: 1, ..Ended::NONE };
    refused(&tables, 14, show_in(1, &[]));
}

#[test]
fn a_delivery_is_tested_1_10_and_then_by_kind() {
    let mut tables = everything_amiss();
    tables.messages[0] = Message::Get { client: 1, item: 1, stamp: Stamp::new(1, 1) };
    tables.messages[1] = Message::Prepare(tables.versions.pop().unwrap());
    tables.messages[2] = Message::Prepared { item: 0, stamp: Stamp::new(1, 1) };
    refused(&tables, 10, deliver(128));
    refused(&tables, 12, deliver(0));
    refused(&tables, 11, deliver(2));
    tables.versions[0].stamp = Stamp::new(512, 1);
    refused(&tables, 11, deliver(1));
    tables.messages.push(tables.messages[0]);
    refused(&tables, 1, deliver(200));
}
