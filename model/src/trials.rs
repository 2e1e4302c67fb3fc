//! Trials of whoever serves the calls on a block, or tells valid blocks from others: held
//! against the model, call by call and word by word.

mod agreement;
mod brimming;
mod busy;
pub mod checks;
pub mod clearings;
pub mod damage;
pub mod edges;
pub mod hand_overs;
mod kept;
mod leftovers;
mod met;
pub mod promises;
pub mod range;
pub mod runs;
mod sparing;
mod views;

pub use brimming::{brimming, SORTS as BRIMMING_SORTS};
pub use busy::Busy;
pub use met::Met;

/// What differed from the model, and on which call.
#[derive(Clone, Debug, PartialEq, Eq)]
pub struct Difference(pub String);
