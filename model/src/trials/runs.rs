//! Random runs on a block, call by call beside the model's store on tables.

use super::{Busy, Difference, Met};
use crate::block::{make, Calls};
use crate::call::Event;
use crate::judge::{judge, Verdict};
use crate::layout::{decode, NEEDED};
use crate::promise::{check, check_from, Summary, Violation};
use crate::random::Random;
use crate::runs::{run_from, run_watched, Run, Sort, Watch};
use crate::store::tables::Tables;

/// What the runs met.
#[derive(Clone, Debug, Default, PartialEq, Eq)]
pub struct Runs {
    pub runs: usize,
    pub met: Met,
    pub longest: usize,
    pub reads_shown: usize,
    pub written_entries_shown: usize,
    pub corrections: usize,
    pub shown_again: usize,
    pub served: usize,
    pub taken_over: usize,
    pub fast_reads_shown: usize,
    pub fetched_again: usize,
    pub fallen: usize,
    pub own_missed: usize,
    pub fast_shown_again: usize,
    pub fast_gots: usize,
    pub stored_meanwhile: usize,
    pub committed_before: usize,
    pub own_committed: usize,
    pub committed_meanwhile: usize,
    pub mixed_shown: usize,
    pub ended_by_a_got: usize,
    pub read_and_written: usize,
    pub mixed_entries_shown: usize,
    pub held_entries_shown: usize,
    pub greatest_load: u64,
    pub most_versions: usize,
}

/// The run of each seed: answers, outputs and tables are the model's, condition 3's promises hold
/// of the list of calls, and its log is clean.
pub fn random_runs(
    served: &dyn Calls,
    sort: Sort,
    seeds: std::ops::Range<u64>,
    runs: &mut Runs,
) -> Result<(), Difference> {
    for seed in seeds {
        random_run(served, sort, seed, runs)
            .map_err(|found| Difference(format!("{sort:?} run {seed}: {}", found.0)))?;
    }
    Ok(())
}

fn random_run(
    served: &dyn Calls,
    sort: Sort,
    seed: u64,
    runs: &mut Runs,
) -> Result<(), Difference> {
    let mut beside = Beside::new(served, seed);
    let run = run_watched(sort, seed, &mut |event, tables| beside.watch(event, tables));
    beside.held?;
    runs.sum_up(&run, check(&run.events))?;
    let verdict = judge(&run.log);
    if verdict != Verdict::CLEAN {
        return Err(Difference(format!("its log is judged {verdict:?}")));
    }
    Ok(())
}

/// A run that goes on from a block that a check accepts: answers, outputs and tables are the
/// model's, and condition 3's promises hold of the list of calls from there. Its log begins in the
/// middle, so that no verdict on it is promised.
pub(super) fn continued(
    served: &dyn Calls,
    sort: Sort,
    seed: u64,
    busy: &Busy,
    runs: &mut Runs,
) -> Result<(), Difference> {
    let mut beside = Beside::on(served, busy.words.clone());
    let watch: &mut Watch = &mut |event, tables| beside.watch(event, tables);
    let run = run_from(sort, seed, &busy.tables, watch);
    beside.held?;
    runs.sum_up(&run, check_from(&busy.tables, &run.events))
}

impl Runs {
    fn sum_up(&mut self, run: &Run, held: Result<Summary, Violation>) -> Result<(), Difference> {
        let summary = held.map_err(|violation| {
            let event = &run.events[violation.event];
            Difference(format!("{violation:?}: {event:?}"))
        })?;
        for event in &run.events {
            self.met.count(&event.call, event.answer);
        }
        self.add(run, &summary);
        Ok(())
    }

    fn add(&mut self, run: &Run, summary: &Summary) {
        self.runs += 1;
        self.longest = self.longest.max(run.events.len());
        self.reads_shown += summary.reads_shown;
        self.written_entries_shown += summary.written_entries_shown;
        self.corrections += summary.corrections;
        self.shown_again += summary.shown_again;
        self.served += summary.served;
        self.taken_over += summary.taken_over;
        self.fast_reads_shown += summary.fast_reads_shown;
        self.fetched_again += summary.fetched_again;
        self.fallen += summary.fallen;
        self.own_missed += summary.own_missed;
        self.fast_shown_again += summary.fast_shown_again;
        self.fast_gots += summary.fast_gots;
        self.stored_meanwhile += summary.stored_meanwhile;
        self.committed_before += summary.committed_before;
        self.own_committed += summary.own_committed;
        self.committed_meanwhile += summary.committed_meanwhile;
        self.mixed_shown += summary.mixed_shown;
        self.ended_by_a_got += summary.ended_by_a_got;
        self.read_and_written += summary.read_and_written;
        self.mixed_entries_shown += summary.mixed_entries_shown;
        self.held_entries_shown += summary.held_entries_shown;
        self.greatest_load = self.greatest_load.max(run.greatest_load);
        self.most_versions = self.most_versions.max(run.most_versions);
    }
}

/// A block on which each call of a run is made as well.
struct Beside<'a> {
    served: &'a dyn Calls,
    words: Vec<u64>,
    /// The words past the needed length, which no call touches.
    past: Vec<u64>,
    calls: usize,
    held: Result<(), Difference>,
}

impl Beside<'_> {
    /// Before the fresh the block holds anything, with sizes of 0.
    fn new(served: &dyn Calls, seed: u64) -> Beside<'_> {
        let mut random = Random::new(seed);
        let length = NEEDED + random.below(4) as usize;
        let mut words: Vec<u64> = (0..length).map(|_| random.number()).collect();
        words[..3].fill(0);
        Beside::on(served, words)
    }

    fn on(served: &dyn Calls, words: Vec<u64>) -> Beside<'_> {
        Beside { served, past: words[NEEDED..].to_vec(), words, calls: 0, held: Ok(()) }
    }

    fn watch(&mut self, event: &Event, tables: &Tables) {
        if self.held.is_ok() {
            self.held = self.hold(event, tables);
        }
    }

    fn hold(&mut self, event: &Event, tables: &Tables) -> Result<(), Difference> {
        self.calls += 1;
        let number = self.calls;
        let found = |what: String| Difference(format!("call {number}, {:?}: {what}", event.call));
        let given = make(self.served, &mut self.words, &event.call);
        if given != *event {
            let (given, model) = (given.answer, event.answer);
            return Err(found(format!("answers {given:#x}, the model {model:#x}")));
        }
        if self.words[NEEDED..] != self.past {
            return Err(found("words past the needed length have changed".to_owned()));
        }
        let decoded = decode(&self.words);
        if tables.sizes.are_allowed() && decoded.as_ref() != Some(tables) {
            return Err(found("leaves other tables than the model".to_owned()));
        }
        Ok(())
    }
}
