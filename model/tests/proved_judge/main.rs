//! The proved judge held against the model's, on logs of every sort: the exported call and the
//! program.

mod call;
mod program;
