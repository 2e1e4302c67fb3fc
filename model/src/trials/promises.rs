//! Random runs held against condition 3's promises alone: the calls are the model's, and what they
//! answer and show is the block's.

use super::checks::accepted;
use crate::block::{make, Calls};
use crate::call::Event;
use crate::layout::NEEDED;
use crate::promise::{check, check_from, Clause};
use crate::runs::{run_watched, run_without_checks, Run, Sort};

/// Whether the runs have checks. A check may refuse the block that a wrong store has made, before a
/// clause about reads and writes is broken.
#[derive(Clone, Copy, Debug, PartialEq, Eq)]
pub enum Checks {
    Made,
    LeftOut,
}

/// The clauses that the runs of the seeds break, of each run the first.
pub fn broken(
    served: &dyn Calls,
    sort: Sort,
    seeds: std::ops::Range<u64>,
    checks: Checks,
) -> Vec<Clause> {
    let mut broken = Vec::new();
    for seed in seeds {
        let run = match checks {
            Checks::Made => run_watched(sort, seed, &mut |_, _| ()),
            Checks::LeftOut => run_without_checks(sort, seed, None),
        };
        let events = made(served, &mut vec![0; NEEDED], &run);
        broken.extend(check(&events).err().map(|violation| violation.clause));
    }
    broken
}

/// The clauses that runs without checks break, of each run the first, from those blocks of the
/// seeds that a check accepts.
pub fn broken_from_accepted(
    served: &dyn Calls,
    sort: Sort,
    seeds: std::ops::Range<u64>,
) -> Vec<Clause> {
    let mut broken = Vec::new();
    for seed in seeds {
        let Some(mut busy) = accepted(sort, seed) else {
            continue;
        };
        let run = run_without_checks(sort, seed, Some(&busy.tables));
        let events = made(served, &mut busy.words, &run);
        let held = check_from(&busy.tables, &events);
        broken.extend(held.err().map(|violation| violation.clause));
    }
    broken
}

/// The run's calls, as they are served on these words.
fn made(served: &dyn Calls, words: &mut [u64], run: &Run) -> Vec<Event> {
    run.events.iter().map(|event| make(served, words, &event.call)).collect()
}
