//! An independent reading of the handover store and its log judge, on plain tables.
//! It is written from the specification alone and shares nothing with the proved crates.

pub mod answer;
pub mod block;
pub mod call;
pub mod explain;
pub mod frames;
pub mod judge;
pub mod layout;
pub mod promise;
#[cfg(feature = "proved")]
pub mod proved;
pub mod random;
pub mod random_tables;
pub mod runs;
pub mod set;
pub mod stamp;
pub mod store;
pub mod trials;
