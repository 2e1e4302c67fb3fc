//! Checks of blocks that calls may not have made, and runs that go on from those accepted.

use super::agreement::agree;
use super::damage::spoil;
use super::kept::kept;
use super::runs::{continued, Runs};
use super::{Busy, Difference, Met};
use crate::block::Calls;
use crate::call::Call;
use crate::layout::decode;
use crate::random::Random;
use crate::runs::{tables_amid, Sort};
use crate::store::check::broken_rules;
use crate::store::range::is_usable;
use crate::store::tables::Tables;

/// What checks met.
#[derive(Clone, Debug, Default, PartialEq, Eq)]
pub struct Checked {
    pub met: Met,
    /// By number of the rule: blocks that break it and no other.
    pub broken_alone: [usize; 10],
}

impl Checked {
    fn count(&mut self, tables: Option<&Tables>, answer: u64) {
        self.met.count(&Call::Check, answer);
        if let Some([rule]) = tables.map(broken_rules).as_deref() {
            self.broken_alone[*rule] += 1;
        }
    }
}

/// A check of the blocks of each seed.
pub fn checks(
    served: &dyn Calls,
    sort: Sort,
    seeds: std::ops::Range<u64>,
    checked: &mut Checked,
) -> Result<(), Difference> {
    for seed in seeds {
        for words in blocks(sort, seed) {
            let answer = agree(served, &words, &Call::Check)
                .map_err(|found| Difference(format!("{sort:?} block {seed}: {}", found.0)))?;
            checked.count(decode(&words).filter(is_usable).as_ref(), answer);
        }
    }
    Ok(())
}

/// The block of a seed with a few things changed, and that block with a word damaged or two.
pub fn blocks(sort: Sort, seed: u64) -> [Vec<u64>; 2] {
    let mut random = Random::new(seed);
    let busy = Busy::holding(kept(sort, seed, 3), seed);
    let mut damaged = busy.words.clone();
    for _ in 0..random.between(1, 2) {
        spoil(&mut damaged, &busy, &mut random);
    }
    [busy.words, damaged]
}

/// Of the blocks that the seeds give, changed or with words damaged, those that are accepted: a run
/// goes on from each, in which condition 3 holds of what it begins, and every check is accepted.
pub fn runs_from_accepted(
    served: &dyn Calls,
    sort: Sort,
    seeds: std::ops::Range<u64>,
    runs: &mut Runs,
) -> Result<(), Difference> {
    for seed in seeds {
        let Some(busy) = accepted(sort, seed) else {
            continue;
        };
        continued(served, sort, seed, &busy, runs)
            .map_err(|found| Difference(format!("{sort:?} run from {seed}: {}", found.0)))?;
    }
    Ok(())
}

/// The block of the seed: in every third place with words damaged, else with things changed; if it
/// is accepted.
pub(super) fn accepted(sort: Sort, seed: u64) -> Option<Busy> {
    let mut random = Random::new(seed);
    let tables = match seed % 3 {
        0 => {
            let busy = Busy::holding(tables_amid(sort, seed), seed);
            let mut words = busy.words.clone();
            for _ in 0..random.between(1, 4) {
                let before = words.clone();
                spoil(&mut words, &busy, &mut random);
                let is_accepted = decode(&words).is_some_and(|tables| is_sound(&tables));
                if !is_accepted {
                    words = before;
                }
            }
            decode(&words)?
        }
        _ => kept(sort, seed, 4),
    };
    is_sound(&tables).then(|| Busy::holding(tables, seed))
}

fn is_sound(tables: &Tables) -> bool {
    is_usable(tables) && broken_rules(tables).is_empty()
}
