//! The store's model held against document 01: its session, examples, steps, refusals and condition
//! 3.

mod answers;
mod bench_examples;
mod condition_3;
mod driver;
mod malformed;
mod refusals;
mod session;
mod steps;
mod support;
