//! The calls that are timed, each with the block that it is made on.

use crate::session::{first_items, some_values, Session};
use koolvent_model::call::Call;
use koolvent_model::layout::decode;
use koolvent_model::store::message::{COMMIT, FIRST_GET, FIRST_REPLY, GET, GOT, PREPARE, PREPARED};
use koolvent_model::store::tables::Sizes;
use koolvent_model::store::Store;

/// A call on a block that accepts it, or refuses it by 3 after the check of all fields.
pub struct Case {
    pub name: &'static str,
    pub block: Vec<u64>,
    pub call: Call,
}

const SHEET: u64 = 0b1111;

fn case(name: &'static str, session: &Session, call: Call) -> Case {
    let block = session.block();
    Case { name, block, call }
}

fn fresh(session: &Session) -> Case {
    let Sizes { clients, partitions, items } = session.tables().sizes;
    let call = Call::Fresh { long_enough: true, clients, partitions, items };
    case("fresh", session, call)
}

pub const READ_OF_4: &str = "start a read of 4 items";
pub const READ_OF_64: &str = "start a read of 64 items";
pub const FAST_READ_OF_4: &str = "start a fast read of 4 items";
pub const FAST_READ_OF_64: &str = "start a fast read of 64 items";
/// The last two first replies of a fast read: of one that ends with them, and of one that doesn't.
pub const BEFORE_THE_LAST: &str = "deliver the 63rd first reply of 64, before the read ends";
pub const LAST_FIRST_REPLY: &str = "deliver the last first reply of 64, and the read ends";
pub const BEFORE_FETCHING: &str =
    "deliver the 63rd first reply of 64, before 7 items are fetched again";
pub const FETCHING_AGAIN: &str =
    "deliver the last first reply of 64, and 7 items are fetched again";
/// A commit on the blocks of the two last ones.
pub const COMMIT_BESIDE_THE_LAST: &str = "deliver a commit, before the read ends";
pub const COMMIT_BESIDE_FETCHING: &str = "deliver a commit, before 7 items are fetched again";

/// The start of a read.
pub fn read(name: &'static str, session: &Session, client: u64, set: u64) -> Case {
    case(name, session, Call::Read { client, set })
}

/// The start of a fast read.
fn fast_read(name: &'static str, session: &Session, client: u64, set: u64) -> Case {
    case(name, session, Call::FastRead { client, set })
}

pub const MIXED_OF_4: &str = "start a mixed transaction that reads and writes 4 items";
const LAST_GOT_OF_MIXED: &str = "deliver the last got, and a mixed transaction ends";
const LAST_PREPARED_OF_MIXED: &str = "deliver the last prepared, and a mixed transaction ends";

/// The start of a mixed transaction.
fn mixed(name: &'static str, session: &Session, client: u64, read: u64, write: u64) -> Case {
    case(name, session, Call::Mixed { client, read, write, values: some_values(write) })
}

/// The check of all fields, and next to nothing else: a read of a client that doesn't exist.
pub const CHECK: &str = "the check alone (refusal 3)";
pub const CHECK_OF_A_FRESH_SHEET: &str = "the check alone, on a fresh sheet";

fn check(name: &'static str, session: &Session) -> Case {
    read(name, session, 9, SHEET)
}

fn write(session: &Session, client: u64) -> Case {
    let call = Call::Write { client, set: SHEET, values: some_values(SHEET) };
    case("start a write of 4 items", session, call)
}

fn deliver(name: &'static str, session: &Session, kind: u64, client: u64) -> Case {
    let place = session.place(kind, client);
    case(name, session, Call::Deliver { place })
}

fn show(name: &'static str, session: &Session, client: u64) -> Case {
    let output = Vec::new();
    case(name, session, Call::Show { client, output })
}

/// On the busy block of two views that differ in 8 of their 64 entries, and of a view with itself,
/// where no entry tells how they stand.
pub const HAND_OVER: &str = "hand over";
pub const COMPARE: &str = "compare two clients";
pub const COMPARE_ALIKE: &str = "compare a client with itself";

fn hand_over(session: &Session, giver: u64, receiver: u64) -> Case {
    case(HAND_OVER, session, Call::HandOver { giver, receiver })
}

fn compare(name: &'static str, session: &Session, first: u64, second: u64) -> Case {
    case(name, session, Call::Compare { first, second })
}

/// A clearing of the block, at which so many versions stay.
pub fn clear(name: &'static str, block: Vec<u64>, stay: usize) -> Case {
    let mut store = Store::with_tables(decode(&block).expect("a block of tables"));
    store.clear();
    assert_eq!(store.tables.versions.len(), stay, "{name}");
    Case { name, block, call: Call::Clear }
}

/// A check of the block.
pub fn check_block(name: &'static str, block: Vec<u64>) -> Case {
    Case { name, block, call: Call::Check }
}

/// Two clients, two partitions, four items: each call where the session of a write and a read of
/// all items makes it.
pub fn small() -> Vec<Case> {
    let mut session = Session::fresh(2, 2, 4);
    let mut cases =
        vec![fresh(&session), check(CHECK_OF_A_FRESH_SHEET, &session), write(&session, 1)];
    session.start_write(1, SHEET);
    cases.push(deliver("deliver a prepare", &session, PREPARE, 1));
    session.deliver(PREPARE, 1, 4);
    cases.push(deliver("deliver a prepared", &session, PREPARED, 1));
    session.deliver(PREPARED, 1, 3);
    cases.push(deliver("deliver the last prepared", &session, PREPARED, 1));
    session.deliver(PREPARED, 1, 1);
    cases.push(deliver("deliver a commit", &session, COMMIT, 1));
    session.deliver(COMMIT, 1, 2);
    cases.push(read(READ_OF_4, &session, 2, SHEET));
    session.start_read(2, SHEET);
    cases.push(deliver("deliver a get", &session, GET, 2));
    session.deliver(GET, 2, 4);
    cases.push(deliver("deliver a got", &session, GOT, 2));
    session.deliver(GOT, 2, 3);
    cases.push(deliver("deliver the last got", &session, GOT, 2));
    session.deliver(GOT, 2, 1);
    cases.push(show("show a read of 4 items", &session, 2));
    cases.push(fast_read(FAST_READ_OF_4, &session, 2, SHEET));
    let mut fast = session.clone();
    fast.start_fast_read(2, SHEET);
    cases.push(deliver("deliver a first get", &fast, FIRST_GET, 2));
    fast.deliver(FIRST_GET, 2, 4);
    cases.push(deliver("deliver a first reply", &fast, FIRST_REPLY, 2));
    fast.deliver(FIRST_REPLY, 2, 3);
    cases.push(deliver("deliver the last first reply", &fast, FIRST_REPLY, 2));
    cases.push(mixed(MIXED_OF_4, &session, 2, SHEET, SHEET));
    let mut under_way = session.clone();
    under_way.start_mixed(2, SHEET, SHEET);
    under_way.deliver(GET, 2, 4);
    under_way.deliver(PREPARE, 2, 4);
    cases.push(deliver("deliver a got to a mixed transaction", &under_way, GOT, 2));
    cases.push(deliver("deliver a prepared to a mixed transaction", &under_way, PREPARED, 2));
    let [got, prepared] = last_replies(under_way, 2, 4, 4);
    cases.push(deliver(LAST_GOT_OF_MIXED, &got, GOT, 2));
    cases.push(deliver(LAST_PREPARED_OF_MIXED, &prepared, PREPARED, 2));
    let mut ended = got;
    ended.deliver(GOT, 2, 1);
    cases.push(show("show a mixed transaction of 4 items", &ended, 2));
    cases.push(hand_over(&session, 1, 2));
    cases.push(compare(COMPARE, &session, 1, 2));
    cases.push(check(CHECK, &session));
    cases
}

/// Eight clients, eight partitions, 64 items, 500 stored versions, 120 messages: one block for all
/// calls.
pub fn busy() -> Vec<Case> {
    let session = busy_session();
    let tables = session.tables();
    assert_eq!((tables.versions.len(), tables.messages.len()), (500, 120));
    let apart = tables.view(1).iter().zip(tables.view(2)).filter(|(one, other)| one != other);
    assert_eq!(apart.count(), 8);
    vec![
        fresh(&session),
        write(&session, 2),
        deliver("deliver a prepare", &session, PREPARE, 6),
        deliver("deliver a prepared", &session, PREPARED, 4),
        deliver("deliver the last prepared", &session, PREPARED, 5),
        deliver("deliver a commit", &session, COMMIT, 2),
        read(READ_OF_4, &session, 2, SHEET),
        fast_read(FAST_READ_OF_4, &session, 2, SHEET),
        mixed(MIXED_OF_4, &session, 2, SHEET, SHEET),
        deliver("deliver a get", &session, GET, 7),
        deliver("deliver a got", &session, GOT, 7),
        deliver("deliver the last got", &session, GOT, 8),
        show("show a read of 64 items", &session, 1),
        hand_over(&session, 2, 1),
        compare(COMPARE, &session, 2, 1),
        compare(COMPARE_ALIKE, &session, 1, 1),
        check(CHECK, &session),
    ]
}

/// A clearing of the busy block.
pub fn busy_clear() -> Case {
    let name = "the busy block: 500 versions, of which 80 stay, and 120 messages";
    clear(name, busy_session().block(), 80)
}

/// A clearing of the busy block where client 7's read is a fast one.
pub fn busy_and_fast_clear() -> Case {
    let name =
        "the busy block with a fast read under way: 500 versions, of which 80 stay, 62 messages";
    clear(name, fetching_again().block(), 80)
}

/// The busy block before client 7 starts its read of all 64 items: 500 stored versions and 56
/// messages, since 120 leave no room for such a read.
pub fn busy_with_room() -> Vec<Case> {
    let session = session_with_room();
    vec![
        read(READ_OF_4, &session, 7, SHEET),
        read(READ_OF_64, &session, 7, first_items(64)),
        fast_read(FAST_READ_OF_64, &session, 7, first_items(64)),
        check(CHECK, &session),
    ]
}

/// The same block with client 7's fast read of all 64 items under way: one of the commits of client
/// 2's write of 8 items is delivered, or none.
pub fn busy_and_fast() -> Vec<Case> {
    let mut fast = session_with_room();
    fast.start_fast_read(7, first_items(64));
    let mut cases = vec![deliver("deliver a first get", &fast, FIRST_GET, 7)];
    fast.deliver(FIRST_GET, 7, 64);
    cases.push(deliver("deliver a first reply", &fast, FIRST_REPLY, 7));
    for (commits, before, commit, last) in [
        (0, BEFORE_THE_LAST, COMMIT_BESIDE_THE_LAST, LAST_FIRST_REPLY),
        (1, BEFORE_FETCHING, COMMIT_BESIDE_FETCHING, FETCHING_AGAIN),
    ] {
        cases.push(deliver(before, &first_replied(commits, 62), FIRST_REPLY, 7));
        let but_one = first_replied(commits, 63);
        cases.push(deliver(commit, &but_one, COMMIT, 2));
        cases.push(deliver(last, &but_one, FIRST_REPLY, 7));
    }
    let mut again = fetching_again();
    cases.push(deliver("deliver a get of an item fetched again", &again, GET, 7));
    again.deliver(GET, 7, 7);
    cases.push(deliver("deliver a got of an item fetched again", &again, GOT, 7));
    cases.push(check(CHECK, &again));
    cases
}

/// So many of client 2's commits are delivered, and then so many first replies to client 7's fast
/// read.
fn first_replied(commits: u32, replies: u32) -> Session {
    let mut session = session_with_room();
    session.deliver(COMMIT, 2, commits);
    session.start_fast_read(7, first_items(64));
    session.deliver(FIRST_GET, 7, 64);
    session.deliver(FIRST_REPLY, 7, replies);
    session
}

/// Client 7's fast read fetches 7 of the items again that client 2 wrote.
fn fetching_again() -> Session {
    let session = first_replied(1, 64);
    assert_eq!(session.tables().client(7).awaited, 0b1111_1110);
    session
}

/// The same block with client 7's mixed transaction under way, which reads 60 items and writes 8:
/// as much as the messages and the versions leave room for.
pub fn busy_and_mixed() -> Vec<Case> {
    let mut session = session_with_room();
    let (read, write) = (first_items(60), first_items(8));
    let start = mixed("start it", &session, 7, read, write);
    session.start_mixed(7, read, write);
    let get = deliver("deliver a get", &session, GET, 7);
    session.deliver(GET, 7, 60);
    let prepare = deliver("deliver a prepare", &session, PREPARE, 7);
    session.deliver(PREPARE, 7, 8);
    let got = deliver("deliver a got", &session, GOT, 7);
    let prepared = deliver("deliver a prepared", &session, PREPARED, 7);
    let [last_got, last_prepared] = last_replies(session, 7, 60, 8);
    vec![
        start,
        get,
        prepare,
        got,
        prepared,
        deliver(LAST_GOT_OF_MIXED, &last_got, GOT, 7),
        deliver(LAST_PREPARED_OF_MIXED, &last_prepared, PREPARED, 7),
        check(CHECK, &last_got),
    ]
}

/// A session in which the client's mixed transaction awaits so many gots and prepared replies, all
/// in flight: with one got left, and with one prepared reply left.
fn last_replies(session: Session, client: u64, gots: u32, prepared: u32) -> [Session; 2] {
    let mut one_got = session.clone();
    one_got.deliver(PREPARED, client, prepared);
    one_got.deliver(GOT, client, gots - 1);
    let mut one_prepared = session;
    one_prepared.deliver(GOT, client, gots);
    one_prepared.deliver(PREPARED, client, prepared - 1);
    [one_got, one_prepared]
}

/// With client 7's read under way too: 32 gets and 32 gots more.
pub fn busy_session() -> Session {
    let mut session = session_with_room();
    session.start_read(7, first_items(64));
    session.deliver(GET, 7, 32);
    session
}

/// Every client has written 60 items, in five writes of every fifth, and read all 64. Then writes
/// by 2 and 3 whose 15 commits lie in the pile, writes by 4, 5 and 6 under way with 4 and 1
/// prepared replies and 4 prepares, and reads by 3 and 8 with 31 gets and a got.
fn session_with_room() -> Session {
    let mut session = Session::fresh(8, 8, 64);
    for client in 1..=8 {
        session.write_first(client, 60);
    }
    for client in 1..=8 {
        session.read(client, first_items(64));
    }
    session.write(2, first_items(8));
    session.write(3, first_items(7));
    session.start_write(4, SHEET);
    session.deliver(PREPARE, 4, 4);
    session.start_write(5, 1);
    session.deliver(PREPARE, 5, 1);
    session.start_write(6, SHEET);
    session.start_read(8, 1);
    session.deliver(GET, 8, 1);
    session.start_read(3, first_items(31));
    let tables = session.tables();
    assert_eq!((tables.versions.len(), tables.messages.len()), (500, 56));
    session
}
