//! Clearings of 20,000 blocks whose versions are each named in one place, or in none, of what they
//! leave, and of each block with a word damaged: the answer and every word after it.

use koolvent_model::proved::store::Proved;
use koolvent_model::trials::clearings::clearings;
use koolvent_model::trials::Met;

#[test]
fn blocks_whose_versions_are_each_named_in_one_place() {
    let mut met = Met::default();
    let held = clearings(&Proved, 400_000..420_000, &mut met);
    assert_eq!(held, Ok(()));
    assert!(met.cleared >= 50_000 && met.gone.min(met.stayed) >= 500_000, "{met:?}");
    met.assert_refused(&[1], 3_000);
}
