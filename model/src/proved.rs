//! The exported calls of the proved libraries. Their contracts ask nothing of a caller, so any
//! number and slice may be passed. Nothing holds these declarations against the Rattle sources: a
//! number is a u64, a slice its pointer and then its length.
//!
//! The wrappers are inlined, so that a program links the libraries it calls and no others.

pub mod judge;
pub mod store;
