//! The proved store held against the model: random runs, damaged blocks, clearings, hand-overs,
//! checks, runs that go on from accepted blocks, and numbers, lengths and rooms at their edges.

mod checks;
mod clearings;
mod damages;
mod edges;
mod hand_overs;
mod range;
mod runs;
