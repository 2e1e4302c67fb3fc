//! One call, held against the model's.

use super::Difference;
use crate::block::{make, Calls, Modelled};
use crate::call::{Call, Event};

/// The answer to the call on this block, if it, the output and every word after it are the model's.
pub(super) fn agree(served: &dyn Calls, block: &[u64], call: &Call) -> Result<u64, Difference> {
    let mut expected = block.to_vec();
    let event = make(&Modelled::default(), &mut expected, call);
    hold(served, block, &event, &expected)
}

/// The call on this block answers the refusal and changes nothing.
pub(super) fn refused(
    served: &dyn Calls,
    block: &[u64],
    call: &Call,
    refusal: u64,
) -> Result<u64, Difference> {
    let event = Event { call: call.clone(), answer: refusal, output: call.output() };
    hold(served, block, &event, block)
}

/// Makes the event's call, and holds what it gives against the event and the words after it.
fn hold(
    served: &dyn Calls,
    block: &[u64],
    event: &Event,
    after: &[u64],
) -> Result<u64, Difference> {
    let mut words = block.to_vec();
    let given = make(served, &mut words, &event.call);
    if given != *event {
        let (call, model, served) = (&event.call, event.answer, given.answer);
        let output = given.output != event.output;
        return Err(Difference(format!(
            "{call:?} answers {served:#x}, the model {model:#x}; another output: {output}"
        )));
    }
    match (0..words.len()).find(|place| words[*place] != after[*place]) {
        None => Ok(given.answer),
        Some(place) => Err(Difference(format!(
            "word {place} was {} and is {} after {:?}, the model's is {}",
            block[place], words[place], event.call, after[place]
        ))),
    }
}
