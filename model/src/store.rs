//! The store on plain tables: calls, each a check against the refusal table and then a step.

mod calls;
pub mod check;
mod clear;
mod fast_read;
pub mod fault;
mod hand_over;
pub mod message;
mod mixed;
pub mod range;
mod refusals;
mod shown;
mod steps;
pub mod tables;

use fault::Fault;
use tables::Tables;

/// The store: its tables, and for tests alone a fault.
#[derive(Clone, Debug, Default, PartialEq, Eq)]
pub struct Store {
    pub tables: Tables,
    fault: Option<Fault>,
}

impl Store {
    /// A store before its first accepted fresh: all zeros, so its sizes are out of range.
    pub fn new() -> Store {
        Store::default()
    }

    /// A store with these tables, whatever they hold.
    pub fn with_tables(tables: Tables) -> Store {
        Store { tables, fault: None }
    }

    /// For tests alone: this store, wrong in one way.
    pub fn with_fault(self, fault: Fault) -> Store {
        Store { fault: Some(fault), ..self }
    }

    fn has(&self, fault: Fault) -> bool {
        self.fault == Some(fault)
    }
}
