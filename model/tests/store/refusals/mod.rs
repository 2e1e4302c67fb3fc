//! The refusal table: each refusal under its stated condition, in order, and leaving everything as
//! it was.

mod capacities;
mod checks;
mod clearings;
mod deliveries;
mod fast_reads;
mod hand_overs;
mod mixed;
mod order;
mod starts;
mod width;

use crate::support::made;
use koolvent_model::answer::Answer;
use koolvent_model::call::Call;
use koolvent_model::store::tables::Tables;

/// The call on these tables is refused so and changes nothing.
fn refused(tables: &Tables, refusal: u64, call: Call) {
    let (answer, after, output) = made(tables, call.clone());
    assert_eq!(answer, Answer::Refused(refusal));
    assert_eq!((after, output), (tables.clone(), call.output()));
}

/// The call on these tables is accepted.
fn accepted(tables: &Tables, call: Call) {
    let (answer, _, _) = made(tables, call);
    assert!(!matches!(answer, Answer::Refused(_)), "{answer:?}");
}
