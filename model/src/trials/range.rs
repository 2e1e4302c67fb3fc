//! Whether a block is valid: fields damaged one by one, and words at random.

use super::damage::spoil;
use super::{Busy, Difference};
use crate::layout::{is_valid, Sort};
use crate::random::Random;
use std::collections::BTreeMap;

/// How often a damaged block was valid and not, by the sort of field or, for words at random,
/// without one.
#[derive(Clone, Debug, Default, PartialEq, Eq)]
pub struct Judged {
    pub valid: BTreeMap<Option<Sort>, usize>,
    pub invalid: BTreeMap<Option<Sort>, usize>,
}

impl Judged {
    /// How many damages there were.
    pub fn damages(&self) -> usize {
        self.valid.values().chain(self.invalid.values()).sum()
    }
}

/// Whoever tells valid blocks from others.
pub type Valid<'a> = dyn Fn(&[u64]) -> bool + 'a;

/// Every field's word with each of ten numbers: 0, 1, the greatest in range and one past it, 2 to
/// the power 32, all ones, one less and one more than it was, and two with some bit changed.
pub fn every_field(
    valid: &Valid,
    busy: &Busy,
    random: &mut Random,
    judged: &mut Judged,
) -> Result<(), Difference> {
    let mut words = busy.words.clone();
    for field in &busy.fields {
        let greatest = field.sort.greatest(&busy.tables.sizes);
        let word = busy.words[field.place];
        for damaged in [
            0,
            1,
            greatest,
            greatest.wrapping_add(1),
            1 << 32,
            u64::MAX,
            word.wrapping_sub(1),
            word.wrapping_add(1),
            word ^ 1 << random.below(36),
            word ^ 1 << random.below(64),
        ] {
            words[field.place] = damaged;
            judge(valid, &words, Some(field.sort), judged)
                .map_err(|place| Difference(format!("{field:?} as {damaged:#x}: {}", place.0)))?;
        }
        words[field.place] = word;
    }
    Ok(())
}

/// One word or a few, each anywhere in the block.
pub fn random_words(
    valid: &Valid,
    busy: &Busy,
    damages: usize,
    random: &mut Random,
    judged: &mut Judged,
) -> Result<(), Difference> {
    for _ in 0..damages {
        let mut words = busy.words.clone();
        let spoilt: Vec<usize> =
            (0..=random.below(3)).map(|_| spoil(&mut words, busy, random)).collect();
        judge(valid, &words, None, judged)
            .map_err(|found| Difference(format!("words {spoilt:?}: {}", found.0)))?;
    }
    Ok(())
}

/// Lengths at the edge.
pub fn lengths(valid: &Valid, busy: &Busy) -> Result<(), Difference> {
    for length in 0..=busy.words.len() {
        let words = &busy.words[..length];
        judge(valid, words, None, &mut Judged::default())?;
    }
    Ok(())
}

fn judge(
    valid: &Valid,
    words: &[u64],
    sort: Option<Sort>,
    judged: &mut Judged,
) -> Result<(), Difference> {
    let expected = is_valid(words);
    if valid(words) != expected {
        return Err(Difference(format!("the model says valid: {expected}")));
    }
    let of = match expected {
        true => &mut judged.valid,
        false => &mut judged.invalid,
    };
    *of.entry(sort).or_default() += 1;
    Ok(())
}
