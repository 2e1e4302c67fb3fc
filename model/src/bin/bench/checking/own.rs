//! Blocks that the store's own calls leave, as busy as can be: what their writes are is sought.

use super::Block;
use crate::session::{first_items, Session};
use koolvent_model::random::Random;
use koolvent_model::store::message::{COMMIT, FIRST_GET, FIRST_REPLY, GET};
use koolvent_model::store::tables::{
    CLIENTS, ITEMS, LOAD_CAPACITY, PARTITIONS, VERSION_CAPACITY, WIDEST_WRITE,
};

/// So many shapes are drawn beside those that are given.
const DRAWN: usize = 40;

/// How clients come to know of writes.
#[derive(Clone, Copy, PartialEq)]
enum Learning {
    /// All of them read everything, twice.
    Read,
    /// The first reads everything, twice, and the others take over.
    TakeOver,
    /// They take over from the first in turn, while it writes: what they know of gets old.
    InTurn,
}

/// Which writes there are, who knows of them, and who reads.
#[derive(Clone, Copy)]
struct Shape {
    /// Of so many items each, by so many clients in turn.
    width: u64,
    writers: u64,
    /// Each write starts so many items after the one before it; after so many writes all items are
    /// so many less.
    step: u64,
    period: u64,
    less: u64,
    learning: Learning,
    /// Six clients have fast reads under way that keep all their first replies.
    are_kept: bool,
}

impl Shape {
    /// As many as leave room for one of two items.
    fn writes(self) -> u64 {
        (VERSION_CAPACITY - 2) / self.width
    }

    fn told(self) -> String {
        let Shape { width, writers, step, period, less, .. } = self;
        let by = if writers == 1 { "a client".to_owned() } else { format!("{writers} clients") };
        let learnt = match self.learning {
            Learning::Read => "read by all",
            Learning::TakeOver => "taken over by all",
            Learning::InTurn => "taken over in turn",
        };
        let kept = if self.are_kept { ", first replies kept" } else { "" };
        format!(
            "{} writes of {width} items by {by}, {step} items apart, and {less} less after \
             {period}, {learnt}{kept}",
            self.writes()
        )
    }

    fn block(self) -> Block {
        let mut session = Session::fresh(CLIENTS as u64, PARTITIONS as u64, ITEMS as u64);
        for place in 0..self.writes() {
            let start =
                self.step * (place % self.period) + (64 - self.less) * (place / self.period);
            let items = (start..start + self.width).map(|item| 1 << (item % ITEMS as u64));
            session.write(1 + place % self.writers, items.fold(0, |set, item: u64| set | item));
            session.deliver_all();
            if self.learning == Learning::InTurn {
                session.hand_over(1, 2 + place * 7 / self.writes());
            }
        }
        learn(&mut session, self.learning);
        if self.are_kept {
            keep_first_replies(&mut session);
        }
        fill(&mut session);
        Block { what: self.told(), words: session.block() }
    }
}

fn learn(session: &mut Session, learning: Learning) {
    let clients = CLIENTS as u64;
    let (readers, heirs) = match learning {
        Learning::Read => (1..=clients, 0),
        Learning::TakeOver => (1..=1, clients),
        Learning::InTurn => return,
    };
    for client in readers {
        session.read(client, first_items(64));
        session.read(client, first_items(64));
    }
    (2..=heirs).for_each(|client| session.hand_over(1, client));
}

/// Six clients read all items fast. Of a write of two items one commit has come: the other item is
/// fetched again, and until its got comes all first replies are kept.
fn keep_first_replies(session: &mut Session) {
    session.write(1, 0b11);
    session.deliver(COMMIT, 1, 1);
    for client in 1..=6 {
        session.start_fast_read(client, first_items(64));
        session.deliver(FIRST_GET, client, 64);
        session.deliver(FIRST_REPLY, client, 64);
        session.deliver(GET, client, 1);
    }
}

/// The last two clients read as many items as there is room for, and all is answered.
fn fill(session: &mut Session) {
    for client in [7, 8] {
        let room = LOAD_CAPACITY - session.tables().load();
        let items = room.min(ITEMS as u64);
        session.start_read(client, first_items(items));
        session.deliver(GET, client, items as u32);
    }
    assert_eq!(session.tables().load(), LOAD_CAPACITY);
}

/// Those whose numbers and items share slots where a slot is told by a product are among them:
/// write n + 28 has the items of write n less 15.
pub fn blocks() -> Vec<Block> {
    let given = [(12, 12, 42, 0), (12, 12, 28, 15), (11, 11, 46, 0), (4, 4, 127, 0)];
    let given = given.map(|(width, step, period, less)| Shape {
        width,
        writers: 1,
        step,
        period,
        less,
        learning: Learning::InTurn,
        are_kept: false,
    });
    let mut random = Random::new(9);
    let drawn = (0..DRAWN).map(|_| Shape {
        width: random.between(2, WIDEST_WRITE),
        writers: random.between(1, 3),
        step: random.below(64),
        period: random.between(1, 60),
        less: random.below(64),
        learning: random.pick(&[Learning::Read, Learning::TakeOver, Learning::InTurn]),
        are_kept: false,
    });
    let shapes = given.into_iter().chain(drawn);
    let both = shapes.flat_map(|shape| [shape, Shape { are_kept: true, ..shape }]);
    both.map(Shape::block).collect()
}
