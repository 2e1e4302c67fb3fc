//! Hand-overs and comparisons on 5,000 blocks whose views stand to each other in every way, and on
//! each of them with a word damaged: the answer and every word after it.

use koolvent_model::proved::store::Proved;
use koolvent_model::trials::hand_overs::hand_overs;
use koolvent_model::trials::Met;

#[test]
fn blocks_whose_views_stand_to_each_other_in_every_way() {
    let mut met = Met::default();
    let held = hand_overs(&Proved, 500_000..505_000, &mut met);
    assert_eq!(held, Ok(()));
    assert!(met.handed_over >= 10_000, "{met:?}");
    assert!(met.compared.iter().all(|times| *times >= 3_000), "{met:?}");
    met.assert_refused(&[1, 4, 18], 1_000);
}
