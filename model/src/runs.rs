//! Random runs: a list of calls from an accepted fresh, or from a block that a check has accepted,
//! refused ones included, with its log.

mod choices;

use crate::answer::{Answer, NONE_ENDED};
use crate::call::{Call, Event};
use crate::frames::hex::to_hex;
use crate::frames::log::MOST_BYTES;
use crate::random::Random;
use crate::store::message::Message;
use crate::store::tables::{Sizes, Tables};
use crate::store::Store;

/// The most bytes and lines of a log that the judge takes.
const LOG_BYTES: usize = 32_768;
const LOG_LINES: usize = 256;

/// What sort of run.
#[derive(Clone, Copy, Debug, PartialEq, Eq)]
pub enum Sort {
    /// Few clients and items, so that they meet often.
    Small,
    /// Any sizes.
    AnySize,
    /// The largest sizes and wide sets, so that the store fills.
    Crowded,
}

/// A run that has been made.
pub struct Run {
    /// All calls from the accepted fresh, or the accepted block, on.
    pub events: Vec<Event>,
    /// Each ended transaction, shown right after its end, and each hand-over, up to the judge's
    /// limits.
    pub log: Vec<u8>,
    pub most_versions: usize,
    pub greatest_load: u64,
    store: Store,
}

/// Which message is delivered next.
#[derive(Clone, Copy)]
enum Order {
    Any,
    First,
    Last,
    /// Commits only when nothing else lies there.
    CommitsLast,
    /// This partition's commits only when nothing else lies there.
    PartitionLast(u64),
    /// This client's messages only when no other lies there.
    ClientLast(u64),
}

/// What is told of each call: what it was and gave, and the tables after it.
pub type Watch<'a> = dyn FnMut(&Event, &Tables) + 'a;

struct Runner<'a, 'b> {
    random: Random,
    sort: Sort,
    sizes: Sizes,
    order: Order,
    /// Before so many calls in a hundred there is a clearing.
    clearings: u64,
    /// A write that 9 refuses is followed by a clearing and tried again.
    clears_when_full: bool,
    /// Before so many calls in a hundred there is a hand-over, and before as many a comparison.
    hand_overs: u64,
    /// So many reads in a hundred are fast.
    fast_reads: u64,
    /// So many starts in a hundred are of mixed transactions.
    mixed: u64,
    /// Before so many calls in a hundred there is a check. Which these are is drawn apart, so that
    /// the other calls are the same without checks.
    checks: u64,
    checks_random: Random,
    log_lines: usize,
    run: Run,
    /// With no watcher the tables after a refusal aren't held against the tables before the call.
    watch: Option<&'a mut Watch<'b>>,
}

/// The run that a seed gives, watched call by call, from those before the accepted fresh on.
pub fn run_watched(sort: Sort, seed: u64, watch: &mut Watch) -> Run {
    let mut runner = Runner::new(sort, seed, Some(watch));
    runner.before_the_fresh();
    runner.go_on()
}

/// A run that goes on from these tables, which a check accepts, watched call by call.
pub fn run_from(sort: Sort, seed: u64, tables: &Tables, watch: &mut Watch) -> Run {
    let mut runner = Runner::new(sort, seed, Some(watch));
    runner.hold(tables);
    runner.call(Call::Check);
    runner.go_on()
}

/// The same run with no checks in it, not watched: from an accepted fresh, or from tables that a
/// check accepts.
pub fn run_without_checks(sort: Sort, seed: u64, from: Option<&Tables>) -> Run {
    let mut runner = Runner::new(sort, seed, None);
    runner.checks = 0;
    match from {
        Some(tables) => runner.hold(tables),
        None => runner.before_the_fresh(),
    }
    runner.go_on()
}

/// Tables from the middle of a run.
pub fn tables_amid(sort: Sort, seed: u64) -> Tables {
    let mut runner = Runner::new(sort, seed, None);
    runner.checks = 0;
    runner.before_the_fresh();
    let calls = runner.random.between(sort.calls() / 4, sort.calls());
    for _ in 0..calls {
        runner.call_something();
    }
    runner.run.store.tables
}

impl Sort {
    /// How many calls are made, deliveries of what is left at the end, showings after ends,
    /// hand-overs, comparisons and checks not counted.
    fn calls(self) -> u64 {
        match self {
            Sort::Small => 120,
            Sort::AnySize => 200,
            Sort::Crowded => 3_000,
        }
    }

    fn sizes(self, random: &mut Random) -> Sizes {
        match self {
            Sort::Small => {
                Sizes::new(random.between(1, 3), random.between(1, 3), random.between(1, 4))
            }
            Sort::AnySize => {
                Sizes::new(random.between(1, 8), random.between(1, 8), random.between(1, 64))
            }
            Sort::Crowded => Sizes::new(8, random.between(1, 8), random.between(60, 64)),
        }
    }
}

impl<'a, 'b> Runner<'a, 'b> {
    fn new(sort: Sort, seed: u64, watch: Option<&'a mut Watch<'b>>) -> Runner<'a, 'b> {
        let mut random = Random::new(seed);
        let sizes = sort.sizes(&mut random);
        let order = match random.below(7) {
            0 => Order::First,
            1 => Order::Last,
            2 => Order::CommitsLast,
            3 => Order::PartitionLast(random.below(sizes.partitions)),
            4 => Order::ClientLast(random.between(1, sizes.clients)),
            _ => Order::Any,
        };
        let clearings = random.pick(&[0, 0, 2, 15]);
        let clears_when_full = random.percent(50);
        let hand_overs = random.pick(&[0, 1, 5, 15]);
        let fast_reads = random.pick(&[0, 50, 50, 100]);
        let mixed = random.pick(&[0, 0, 20, 50]);
        let mut checks_random = Random::new(!seed);
        let checks = match sort {
            Sort::Crowded => 3,
            _ => checks_random.pick(&[0, 0, 0, 5, 25, 100]),
        };
        Runner {
            random,
            sort,
            sizes,
            order,
            clearings,
            clears_when_full,
            hand_overs,
            fast_reads,
            mixed,
            checks,
            checks_random,
            log_lines: 0,
            run: Run {
                events: Vec::new(),
                log: Vec::new(),
                most_versions: 0,
                greatest_load: 0,
                store: Store::new(),
            },
            watch,
        }
    }

    fn hold(&mut self, tables: &Tables) {
        self.sizes = tables.sizes;
        self.run.store = Store::with_tables(tables.clone());
    }

    fn go_on(mut self) -> Run {
        for _ in 0..self.sort.calls() {
            self.call_something();
        }
        if self.random.percent(90) {
            self.deliver_all();
        }
        self.run
    }

    fn call_something(&mut self) {
        if self.random.percent(self.clearings) {
            self.call(Call::Clear);
        }
        if self.random.percent(self.hand_overs) {
            self.hand_over();
        }
        if self.random.percent(self.hand_overs) {
            self.compare();
        }
        if self.checks_random.percent(self.checks) {
            self.call(Call::Check);
        }
        match self.random.below(100) {
            0..60 => self.deliver_next(),
            60..90 => self.start(),
            90..94 => self.show_again(),
            _ => self.call_amiss(),
        }
    }

    fn before_the_fresh(&mut self) {
        let Sizes { clients, partitions, items } = self.sizes;
        let fresh = |long_enough, clients| Call::Fresh { long_enough, clients, partitions, items };
        self.call(Call::Deliver { place: 0 });
        self.call(fresh(true, 9));
        self.call(fresh(false, clients));
        self.call(Call::Read { client: 1, set: 1 });
        self.call(Call::FastRead { client: 1, set: 1 });
        self.call(Call::Mixed { client: 1, read: 1, write: 1, values: vec![0; 4] });
        self.call(Call::Clear);
        self.call(Call::HandOver { giver: 1, receiver: 2 });
        self.call(Call::Compare { first: 1, second: 1 });
        self.call(Call::Check);
        self.run.events.clear();
        self.call(fresh(true, clients));
    }

    /// Makes the call; shows and logs what it ended, or logs who handed over to whom.
    fn call(&mut self, call: Call) -> Answer {
        let before = self.watch.is_some().then(|| self.run.store.tables.clone());
        let delivered = match &call {
            Call::Deliver { place } => self.run.store.tables.messages.get(*place as usize),
            _ => None,
        };
        let client = delivered.map(Message::client);
        let (answer, event) = self.run.store.make(call);
        if let Some(watch) = &mut self.watch {
            watch(&event, &self.run.store.tables);
        }
        if let (Answer::Refused(refusal), Some(before)) = (answer, before) {
            let after = &self.run.store.tables;
            assert_eq!(*after, before, "refusal {refusal} changed the tables");
        }
        let ended = match answer {
            Answer::Delivered { outcome, .. } if outcome != NONE_ENDED => client,
            _ => None,
        };
        self.run.events.push(event);
        let tables = &self.run.store.tables;
        self.run.most_versions = self.run.most_versions.max(tables.versions.len());
        self.run.greatest_load = self.run.greatest_load.max(tables.load());
        if let Some(client) = ended {
            self.show_and_log(client);
        }
        if let Answer::HandedOver { .. } = answer {
            self.log(&answer.bytes(&[])[1..]);
        }
        answer
    }

    fn show_and_log(&mut self, client: u64) {
        let room = MOST_BYTES + self.random.below(20) as usize;
        let output = self.random.bytes(room);
        let Answer::Shown { length } = self.call(Call::Show { client, output }) else {
            panic!("a showing after an end was refused");
        };
        let shown = self.run.events.last().expect("the showing");
        let frame = shown.output[..length as usize].to_vec();
        self.log(&frame);
    }

    fn log(&mut self, frame: &[u8]) {
        let line = to_hex(frame) + "\n";
        if self.log_lines < LOG_LINES && self.run.log.len() + line.len() <= LOG_BYTES {
            self.run.log.extend(line.bytes());
            self.log_lines += 1;
        } else {
            self.log_lines = LOG_LINES;
        }
    }
}
