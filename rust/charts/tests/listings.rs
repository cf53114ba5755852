//! The listings that are drawn: every result is met often, and no other.

use charts::listings::any;
use charts::random::Random;
use reference::listing::chart;
use std::collections::BTreeMap;

const LISTINGS: usize = 8_000;
const SEED: u64 = 2_026_111_602;

#[test]
fn drawn_listings_have_every_result() {
    let mut random = Random::new(SEED);
    let mut results = BTreeMap::new();
    for _ in 0..LISTINGS {
        let text = any(&mut random);
        let number = chart(&text).map_or_else(|refusal| refusal, |_| 0);
        *results.entry(number).or_insert(0) += 1;
    }
    let numbers: Vec<u8> = results.keys().copied().collect();
    assert_eq!(numbers, [0, 5, 6, 8, 14, 15, 16], "{results:?}");
    assert!(results.values().all(|&times| times > 50), "{results:?}");
    assert!(results[&0] > LISTINGS / 3, "{results:?}");
}
