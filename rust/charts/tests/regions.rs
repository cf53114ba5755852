//! Charts with regions inside regions: what the generators draw, and what refuses the damaged ones.

use charts::random::Random;
use charts::regions::{crowded, region_of_barriers, same_name, wrong_barrier, wrong_parallel};
use charts::valid::{valid, Shape};
use reference::builder::ChartBuilder;
use reference::chart::{Chart, Construct};
use reference::refusals::decode_checked;

fn nested(seed: u64) -> (Random, ChartBuilder) {
    let mut random = Random::new(seed);
    let shape = Shape::nested(&mut random);
    let chart = valid(&mut random, &shape);
    (random, chart)
}

fn charts(seeds: u64) -> Vec<Chart> {
    let drawn = (0..seeds).map(|seed| nested(seed).1.bytes());
    drawn.map(|x| decode_checked(&x).unwrap()).collect()
}

fn is_parallel(chart: &Chart, construct: usize) -> bool {
    chart.constructs[construct].kind == Construct::PARALLEL
}

/// The parallels that a construct is or that are around it.
fn depth(chart: &Chart, construct: usize) -> usize {
    let around = chart.outward(construct as u8).into_iter();
    around.filter(|&c| is_parallel(chart, c)).count()
}

fn share(charts: &[Chart], property: impl Fn(&Chart, usize) -> bool) -> usize {
    let has = |x: &&Chart| (0..x.constructs.len()).any(|c| property(x, c));
    charts.iter().filter(has).count()
}

#[test]
fn parallels_up_to_three_deep_with_all_that_stands_in_them() {
    let charts = charts(3_000);
    for (deep, least) in [(1, 1_500), (2, 250), (3, 20)] {
        let count = share(&charts, |x, c| is_parallel(x, c) && depth(x, c) == deep);
        assert!(count > least, "{deep} deep: {count}");
    }
    for kind in Construct::SINGLE..=Construct::SECTION {
        let inside = |x: &Chart, c: usize| x.constructs[c].kind == kind && depth(x, c) > 0;
        assert!(share(&charts, inside) > 20, "kind {kind} in a parallel");
        let around = |x: &Chart, c: usize| {
            let above = x.outward(x.constructs[c].parent);
            is_parallel(x, c) && above.iter().any(|&c| x.constructs[c].kind == kind)
        };
        let expected = if kind == Construct::SECTIONS { 0 } else { 5 };
        assert!(
            share(&charts, around) > expected,
            "a parallel in kind {kind}"
        );
    }
    let barriers = |x: &Chart, c: usize| is_parallel(x, c) && x.barriers_of(c as u8) > 2;
    assert!(share(&charts, barriers) > 500);
    let comes_back = |x: &Chart, c: usize| {
        let edge = (x.end_of(c) as u8, x.begin_of(c) as u8);
        is_parallel(x, c) && x.edges.iter().any(|e| (e.from, e.to) == edge)
    };
    assert!(share(&charts, comes_back) > 300);
}

#[test]
fn large_charts_have_regions_too() {
    let drawn = (0..600).map(|seed| charts::large(&mut Random::new(seed)));
    let charts: Vec<Chart> = drawn.map(|x| decode_checked(&x).unwrap()).collect();
    let barriers = |x: &Chart, c: usize| is_parallel(x, c) && x.barriers_of(c as u8) > 8;
    assert!(share(&charts, barriers) > 20);
    let deep = |x: &Chart, c: usize| is_parallel(x, c) && depth(x, c) > 3;
    assert!(share(&charts, deep) > 10);
}

#[test]
fn damaged_regions_are_refused() {
    let mut crowds = 0;
    for seed in 0..1_000 {
        let (mut random, chart) = nested(seed);
        let refused = |bytes: Vec<u8>| decode_checked(&bytes).err();
        let bytes = wrong_barrier(&mut random, &mut chart.clone());
        assert_eq!(refused(bytes), Some(5), "seed {seed}");
        let bytes = wrong_parallel(&mut random, &mut chart.clone());
        assert_eq!(refused(bytes), Some(6), "seed {seed}");
        for (parted, row) in [(false, 6), (true, 7)] {
            let bytes = same_name(&mut random, &mut chart.clone(), parted);
            assert_eq!(refused(bytes), Some(row), "seed {seed}");
        }
        // no edge leads to what is added: with 64 barriers a later row applies
        for count in [64, 65] {
            if let Some(bytes) = crowded(&mut random, &chart, count) {
                let row = refused(bytes).expect("a damaged chart");
                assert_eq!(row == 8, count > 64, "seed {seed}: {row}");
                crowds += 1;
            }
        }
    }
    assert!(crowds > 500, "{crowds}");
}

#[test]
fn barriers_of_one_region() {
    for (count, row) in [
        (0, None),
        (61, None),
        (62, None),
        (63, Some(8)),
        (64, Some(8)),
    ] {
        assert_eq!(
            decode_checked(&region_of_barriers(count)).err(),
            row,
            "{count}"
        );
    }
}
