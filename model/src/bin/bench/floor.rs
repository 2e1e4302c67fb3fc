//! The floor: one plain pass over the words in use.

use crate::call::BLOCKS;
use crate::clock::{quickest_way, steps, Contender};
use koolvent_model::layout::{decode, fields};
use std::arch::asm;
use std::hint::black_box;
use std::ops::Range;
use std::rc::Rc;

/// Words between two fields that a pass goes over rather than around: those of a cache line.
const GAP: usize = 8;

/// Words that a pass goes over.
pub type Stretches = Vec<Range<usize>>;

/// The words of the block that a range check has to look at, as stretches, and the few between
/// them.
pub fn in_use(block: &[u64]) -> Stretches {
    let tables = decode(block).expect("a block of tables");
    let mut places: Vec<usize> = fields(&tables).iter().map(|field| field.place).collect();
    places.sort_unstable();
    let mut stretches = Stretches::new();
    for place in places {
        match stretches.last_mut() {
            Some(last) if place < last.end + GAP => last.end = place + 1,
            _ => stretches.push(place..place + 1),
        }
    }
    stretches
}

/// A pass over each of these stretches, one after the other; each copy of it on a block of its own.
/// The copies share the stretches: those of a sheet's life are some megabytes.
pub fn passes<'a>(block: &[u64], of_each: Vec<Stretches>) -> Contender<'a> {
    let of_each = Rc::new(of_each);
    let with = |sum: Sum| {
        let (block, of_each) = (block.to_vec(), Rc::clone(&of_each));
        steps(move || {
            for stretches in of_each.iter() {
                black_box(sum(black_box(&block), stretches));
            }
        })
    };
    quickest_way(SUMS.map(with).into())
}

type Sum = fn(&[u64], &[Range<usize>]) -> u64;

/// Copies of the sum for each place in a line of the instruction cache where a loop may start. It
/// is a loop of seven instructions, and takes 1.6 times as long where these lie across two lines,
/// which any change of this program may bring about: the quickest copy counts.
const SUMS: [Sum; BLOCKS] = [sum::<0>, sum::<1>, sum::<2>, sum::<3>];

/// The sum of the words; its loops lie so many times 16 bytes further past the start of a line than
/// those of the first copy.
#[inline(never)]
fn sum<const PAST: usize>(block: &[u64], stretches: &[Range<usize>]) -> u64 {
    // Safety: these instructions do nothing, and are there for their length.
    unsafe {
        asm!(
            ".p2align 6",
            ".rept {past}",
            "nop",
            ".p2align 4",
            ".endr",
            past = const PAST,
            options(nomem, nostack, preserves_flags),
        );
    }
    stretches.iter().fold(0, |sum, stretch| {
        let words = block[stretch.clone()].iter();
        words.fold(sum, |sum, word| sum.wrapping_add(*word))
    })
}
