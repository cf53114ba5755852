//! What is drawn for locks that can be dropped: charts of all sizes, with every byte among their criticals; and the
//! benchmark's charts with the most criticals.

use charts::benchmark::criticals;
use charts::locks::branching;
use charts::random::Random;
use reference::regions::outermost;

/// The bytes of the criticals.
fn bytes(chart: &[u8]) -> Vec<u8> {
    let mut out = [255; 48];
    assert!(outermost::locks(chart, &mut out) >= 0);
    out.into_iter().filter(|&byte| byte != 255).collect()
}

#[test]
fn every_byte_is_drawn() {
    for branches in [2, 3, 24] {
        let mut seen = [0; 3];
        for seed in 0..200 {
            let chart = branching(&mut Random::new(seed), branches).bytes();
            let bytes = bytes(&chart);
            assert_eq!(bytes.len(), branches, "seed {seed}");
            bytes.iter().for_each(|&byte| seen[usize::from(byte)] += 1);
        }
        assert!(seen.iter().all(|&times| times > 10), "{branches}: {seen:?}");
    }
}

#[test]
fn all_are_needed_or_none() {
    let [(_, row), (_, apart)] = criticals();
    assert_eq!(bytes(&row), [0; 48]);
    assert_eq!(bytes(&apart), [2; 24]);
}
