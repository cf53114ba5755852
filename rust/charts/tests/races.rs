//! What is drawn for Note 9 of 02: charts with criticals, of which many share a name, and lists of accesses.

use charts::races::{accesses, wrong_accesses};
use charts::random::Random;
use charts::valid::{valid, Shape};
use reference::chart::Construct;
use reference::races;
use reference::refusals::decode_checked;
use reference::regions::{read, OUTERMOST};

#[test]
fn charts_with_criticals() {
    let (mut shared, mut deep) = (0, 0);
    for seed in 0..1_000 {
        let mut random = Random::new(seed);
        let shape = Shape::locked(&mut random);
        let bytes = valid(&mut random, &shape).bytes();
        let chart = decode_checked(&bytes).expect("a valid chart");
        assert!(chart.nodes.len() <= 13 && chart.constructs.len() <= 4);
        let criticals = chart.constructs.iter();
        let criticals = criticals.filter(|x| x.kind == Construct::CRITICAL);
        let mut names: Vec<u16> = criticals.clone().map(|x| x.name).collect();
        deep += usize::from(criticals.clone().any(|x| x.parent != Construct::NONE));
        let count = names.len();
        names.sort_unstable();
        names.dedup();
        shared += usize::from(names.len() < count);
    }
    assert!(shared > 100 && deep > 100, "{shared} {deep}");
}

#[test]
fn lists_of_accesses() {
    let chart = reference::known::chart_x(&[]);
    let region = read(&chart, OUTERMOST.into()).expect("a valid chart");
    let mut random = Random::new(9);
    let mut refused = 0;
    for count in 1..200 {
        let list = accesses(&mut random, &[1, 3, 5, 7], count, 6);
        let read = races::accesses(&region, &list).expect("a list in order");
        assert_eq!(read.len(), count);
        let wrong = wrong_accesses(&mut random, list);
        refused += usize::from(races::accesses(&region, &wrong) == Err(20));
    }
    assert_eq!(refused, 199);
}
