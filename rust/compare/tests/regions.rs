//! Regions inside regions (02, Note 12) through every call of the archive: the known charts and drawn
//! ones, for each of their regions, for numbers that name none, and with all that would be refused later.

use charts::random::Random;
use charts::regions::{crowded, region_of_barriers, same_name, wrong_barrier, wrong_parallel};
use charts::valid::{valid, Shape};
use compare::regions::{regions_of, BEYOND, OUTERMOST};
use compare::Archive;
use reference::builder::ChartBuilder;
use reference::known::*;
use reference::refusals::decode_checked;

const CHARTS: u64 = 1_000;
const FILL: u8 = 0x5A;

fn known() -> Vec<Vec<u8>> {
    let around = (1..=4).map(|kind| chart_t(kind, &[(7, 1)]));
    let others = [
        chart_z(&[]),
        chart_z(&[(6, 1), (4, 2)]),
        chart_w(),
        chart_v(),
        chart_u(),
        chart_t(1, &[(5, 3)]),
        chart_k(),
        chart_x(&[]),
    ];
    others.into_iter().chain(around).collect()
}

/// A number names no region: 23, whatever else is wrong with the call, and nothing is written.
fn assert_refused(archive: &mut Archive, chart: &[u8], region: usize) {
    for claims in [&[][..], &[1, 1], &[0, 0], &[1], &[255, 255, 0]] {
        assert_eq!(archive.judge(chart, region, claims), -23, "{region}");
    }
    for (a, b) in [(1, 1), (0, 0), (256, 1), (1, usize::MAX)] {
        assert_eq!(archive.pair(chart, region, a, b), -23, "{region}");
    }
    for room in [0, 1, 192, 192 * 192] {
        let mut out = vec![FILL; room];
        assert_eq!(archive.phases(chart, region, &mut out), -23, "{region}");
        assert_eq!(archive.distances(chart, region, &mut out), -23, "{region}");
        assert_eq!(archive.sheet(chart, region, &mut out), -23, "{region}");
        assert_eq!(archive.locks(chart, region, &mut out), -23, "{region}");
        assert_eq!(out, vec![FILL; room], "{region}");
    }
}

#[test]
fn known_charts_in_each_region() {
    let mut archive = Archive::new();
    for chart in known() {
        assert!(archive.agree(&chart) > 0);
        let regions = regions_of(&chart);
        let others = (0..255).filter(|x| !regions.contains(x));
        for region in others.chain(BEYOND) {
            assert_refused(&mut archive, &chart, region);
        }
    }
}

#[test]
fn answers_of_known_charts() {
    let mut archive = Archive::new();
    let (z, t) = (chart_z(&[]), chart_t(1, &[]));
    for (chart, region, a, answer) in [
        (&z, OUTERMOST, 3, 0),
        (&z, 0, 3, 3),
        (&z, OUTERMOST, 5, 0),
        (&z, 0, 5, -13),
        (&z, 0, 1, -13),
        (&z, 0, 7, -13),
        (&z, 1, 3, -23),
        (&chart_w(), 0, 4, 0),
        (&chart_v(), 1, 3, 0),
        (&chart_v(), 1, 2, -13),
        (&t, OUTERMOST, 4, 3),
        (&t, 1, 4, 3),
        (&t, 1, 3, 0),
        (&chart_u(), 0, 3, 3),
        (&chart_u(), OUTERMOST, 3, 0),
    ] {
        assert_eq!(archive.pair(chart, region, a, a), answer, "{region}: {a}");
    }
    assert_eq!(archive.admit(&z), 66_056);
    assert_eq!(archive.judge(&z, 0, &[3, 3, 2, 3]), 2);
    assert_eq!(archive.judge(&z, OUTERMOST, &[3, 3]), 1);
}

/// 23 comes straight after 10: the chart's own refusals come first, and 11, 12 and 13 of a region later.
#[test]
fn refusals_in_order() {
    let mut archive = Archive::new();
    let chart = chart_z(&[]);
    let mut cut = ChartBuilder::from_chart(&decode_checked(&chart).expect("chart Z"));
    cut.edges.remove(3);
    for region in [0, 1, 254, OUTERMOST, 256, usize::MAX] {
        assert_eq!(archive.pair(&cut.bytes(), region, 3, 3), -10, "{region}");
        assert_eq!(archive.judge(&chart[1..], region, &[3]), -4, "{region}");
    }
    for region in [0, OUTERMOST] {
        assert_eq!(archive.judge(&chart, region, &[3, 3, 0]), -12);
        assert_eq!(archive.judge(&chart, region, &[3, 3, 3, 0]), -13);
        assert_eq!(archive.phases(&chart, region, &mut [FILL; 127]), -11);
        assert_eq!(archive.distances(&chart, region, &mut [FILL; 7]), -11);
        assert_eq!(archive.sheet(&chart, region, &mut [FILL; 63]), -11);
    }
}

fn nested(seed: u64) -> (Random, ChartBuilder) {
    let mut random = Random::new(seed);
    let shape = match seed % 10 {
        0 => Shape {
            kinds: charts::regions::NESTED_KINDS,
            ..Shape::large(&mut random)
        },
        _ => Shape::nested(&mut random),
    };
    let chart = valid(&mut random, &shape);
    (random, chart)
}

#[test]
fn drawn_charts_in_each_region() {
    let mut archive = Archive::new();
    let mut inner = 0;
    for seed in 0..CHARTS {
        let (mut random, chart) = nested(seed);
        let bytes = chart.bytes();
        assert!(archive.agree(&bytes) > 0, "seed {seed}");
        let regions = regions_of(&bytes);
        for &region in &regions {
            archive.agree_in(&bytes, region, chart.nodes.len());
        }
        inner += regions.len() - 1;
        for number in 0..chart.constructs.len() + 1 {
            if !regions.contains(&number) {
                assert_eq!(archive.pair(&bytes, number, 1, 1), -23, "seed {seed}");
            }
        }
        assert_refused(&mut archive, &bytes, random.pick(&BEYOND));
    }
    assert!(inner > CHARTS as usize, "{inner}");
}

#[test]
fn damaged_charts() {
    let mut archive = Archive::new();
    for seed in (0..CHARTS).filter(|seed| seed % 10 != 0) {
        let (mut random, chart) = nested(seed);
        let bytes = wrong_barrier(&mut random, &mut chart.clone());
        assert_eq!(archive.agree(&bytes), -5, "seed {seed}");
        let bytes = wrong_parallel(&mut random, &mut chart.clone());
        assert_eq!(archive.agree(&bytes), -6, "seed {seed}");
        for (parted, row) in [(false, 6), (true, 7)] {
            let bytes = same_name(&mut random, &mut chart.clone(), parted);
            assert_eq!(archive.agree(&bytes), -row, "seed {seed}");
        }
        for count in [64, 65] {
            if let Some(bytes) = crowded(&mut random, &chart, count) {
                let number = archive.agree(&bytes);
                assert_eq!(number == -8, count > 64, "seed {seed}");
            }
        }
        archive.agree(&charts::damage::scattered(&mut random, chart.bytes()));
    }
    for (count, admitted) in [(61, true), (62, true), (63, false)] {
        assert_eq!(archive.agree(&region_of_barriers(count)) > 0, admitted);
    }
}
