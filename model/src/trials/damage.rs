//! Blocks with one word or two damaged: each call on each of them.

mod choices;

use super::agreement::{agree, refused};
use super::{Busy, Difference, Met};
use crate::block::Calls;
use crate::call::Call;
use crate::layout::{decode, Sort};
use crate::random::Random;
use crate::store::range::is_usable;
use choices::Chooser;

/// What damaged blocks gave.
#[derive(Clone, Debug, Default, PartialEq, Eq)]
pub struct Damaged {
    pub blocks: usize,
    /// Those that stayed valid.
    pub valid: usize,
    pub met: Met,
}

/// So many damages of the block, each followed by every call on a copy of its own.
pub fn damaged_blocks(
    served: &dyn Calls,
    busy: &Busy,
    damages: usize,
    random: &mut Random,
    damaged: &mut Damaged,
) -> Result<(), Difference> {
    for _ in 0..damages {
        let mut words = busy.words.clone();
        let mut place = spoil(&mut words, busy, random);
        if random.percent(50) {
            place = spoil(&mut words, busy, random);
        }
        damaged.blocks += 1;
        let tables = decode(&words).filter(is_usable);
        damaged.valid += usize::from(tables.is_some());
        let mut chooser =
            Chooser { random, tables: tables.as_ref().unwrap_or(&busy.tables), damaged: place };
        let [read, write] = [chooser.read(), chooser.write()];
        let [fast_read, mixed] = [chooser.fast_read(), chooser.mixed()];
        let [hand_over, compare] = [chooser.hand_over(), chooser.compare()];
        let others = [chooser.deliver(), chooser.show(), Call::Clear, hand_over, compare];
        let starts = [read, fast_read, write, mixed];
        // Blocks that calls may not have made have checks of their own, so few are enough.
        let check = damaged.blocks.is_multiple_of(4).then_some(Call::Check);
        for call in starts.into_iter().chain(others).chain(check) {
            let answer = match &tables {
                Some(_) => agree(served, &words, &call),
                None => refused(served, &words, &call, 1),
            };
            damaged.met.count_on(chooser.tables, &call, answer?);
        }
        // What was there before a fresh doesn't matter, so few are enough.
        if damaged.blocks.is_multiple_of(16) {
            let call = chooser.fresh();
            damaged.met.count(&call, agree(served, &words, &call)?);
        }
    }
    Ok(())
}

/// Puts another word somewhere, more often where a call will look, and gives its place.
pub(super) fn spoil(words: &mut [u64], busy: &Busy, random: &mut Random) -> usize {
    let place = match random.below(4) {
        0 => random.below(words.len() as u64) as usize,
        _ => busy.some_place(random),
    };
    let word = words[place];
    let sizes = &busy.tables.sizes;
    let stamp = Sort::Stamp.greatest(sizes);
    words[place] = match random.below(8) {
        0 => word ^ 1 << random.below(64),
        1 => word ^ 1 << random.below(sizes.items),
        2 => word ^ 1 << random.below(6),
        3 => word.wrapping_add(1),
        4 => word.wrapping_sub(1),
        5 => random.below(20),
        6 => random.pick(&[1 << 32, u64::from(u32::MAX), 1 << 63, u64::MAX, sizes.items, stamp]),
        _ => words[busy.some_place(random)],
    };
    place
}
