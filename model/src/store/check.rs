//! The test of a block (document 02, P9): "a new call tests a block that our own calls may not have
//! made". Its rules are the ticket's sentences, or parts of them, in their order; a block that
//! breaks none is accepted.

mod block;
mod messages;
mod misread;
mod named;
mod rules;

pub use misread::{misread, Misread};
pub use named::Place;

use super::tables::Tables;
use block::Block;

/// The numbers of the rules, from 1, that tables in range break.
pub fn broken_rules(tables: &Tables) -> Vec<usize> {
    broken(&Block::new(tables, None))
}

fn broken(block: &Block) -> Vec<usize> {
    let rules = [
        block.named_stamps_are_whole_or_initial(),
        block.named_items_are_in_their_sets(),
        block.copies_of_sets_agree(),
        block.no_two_versions_are_alike(),
        block.replies_hold_their_versions_values(),
        block.no_number_is_above_its_count(),
        block.writes_have_their_client_and_count(),
        block.what_has_arrived_is_stored(),
        block.each_awaited_item_has_its_one_message(),
    ];
    (1..).zip(rules).filter(|(_, holds)| !holds).map(|(rule, _)| rule).collect()
}
