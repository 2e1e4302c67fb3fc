//! Sets of items as 64-bit numbers, item k being the bit worth 2 to the power k.

/// Whether the set holds the item; any number may be asked about.
pub fn has(set: u64, item: u64) -> bool {
    item < 64 && set >> item & 1 == 1
}

/// How many items the set holds.
pub fn size(set: u64) -> u64 {
    u64::from(set.count_ones())
}

/// The items of the set, ascending.
pub fn items(set: u64) -> impl Iterator<Item = u64> {
    (0..64).filter(move |item| has(set, *item))
}

/// The set without the item.
pub fn without(set: u64, item: u64) -> u64 {
    if has(set, item) {
        set - (1 << item)
    } else {
        set
    }
}

/// Whether every item of the set is below the number of items.
pub fn holds_only_below(set: u64, number_of_items: u64) -> bool {
    number_of_items >= 64 || set >> number_of_items == 0
}

/// Whether every item of the set is in the other.
pub fn lies_in(set: u64, other: u64) -> bool {
    set & !other == 0
}
