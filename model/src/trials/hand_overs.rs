//! Hand-overs and comparisons on blocks whose views stand to each other in every way.

use super::agreement::agree;
use super::damage::spoil;
use super::views::views;
use super::{Difference, Met};
use crate::block::{make, Calls, Modelled};
use crate::call::Call;
use crate::random::Random;

/// On the block of each seed, of some two clients: a hand-over, a comparison before and after it,
/// and both on the block with a word damaged.
pub fn hand_overs(
    served: &dyn Calls,
    seeds: std::ops::Range<u64>,
    met: &mut Met,
) -> Result<(), Difference> {
    for seed in seeds {
        let busy = views(seed);
        let mut random = Random::new(!seed);
        for _ in 0..4 {
            let clients = busy.tables.sizes.clients;
            let [one, other] = [(); 2].map(|()| random.between(1, clients));
            let hand_over = Call::HandOver { giver: one, receiver: other };
            let compare = Call::Compare { first: one, second: other };
            let mut after = busy.words.clone();
            make(&Modelled::default(), &mut after, &hand_over);
            let mut damaged = busy.words.clone();
            spoil(&mut damaged, &busy, &mut random);
            let made = [
                (&busy.words, &hand_over),
                (&busy.words, &compare),
                (&after, &compare),
                (&damaged, &hand_over),
                (&damaged, &compare),
            ];
            for (words, call) in made {
                let answer = agree(served, words, call);
                let answer =
                    answer.map_err(|found| Difference(format!("views {seed}: {}", found.0)))?;
                met.count(call, answer);
            }
        }
    }
    Ok(())
}
