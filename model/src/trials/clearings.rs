//! Clearings of blocks whose versions are each named in one place, or in none.

use super::agreement::agree;
use super::damage::spoil;
use super::sparing::sparing;
use super::{Difference, Met};
use crate::block::{make, Calls, Modelled};
use crate::call::Call;
use crate::layout::places;
use crate::random::Random;

/// A clearing of the block of each seed, another of what it leaves, and one of the block with a
/// word damaged.
pub fn clearings(
    served: &dyn Calls,
    seeds: std::ops::Range<u64>,
    met: &mut Met,
) -> Result<(), Difference> {
    for seed in seeds {
        let mut busy = sparing(seed);
        met.count(&Call::Clear, agree(served, &busy.words, &Call::Clear)?);
        let mut damaged = busy.words.clone();
        spoil(&mut damaged, &busy, &mut Random::new(seed));
        make(&Modelled::default(), &mut busy.words, &Call::Clear);
        met.stayed += busy.words[places::VERSIONS];
        for words in [&busy.words, &damaged] {
            met.count(&Call::Clear, agree(served, words, &Call::Clear)?);
        }
    }
    Ok(())
}
