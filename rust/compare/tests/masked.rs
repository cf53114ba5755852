//! Charts of edition 2 (02, Note 5), valid and damaged, through every call of the archive: chart Y, the
//! longest chart, and draws of which each has a masked construct.

use charts::damage;
use charts::random::Random;
use charts::valid::{valid, Shape, FAR_FILTERS, NEAR_FILTERS};
use compare::regions::OUTERMOST;
use compare::Archive;
use reference::builder::ChartBuilder;
use reference::chart::Construct;
use reference::known::{chart_k, chart_y, longest};
use reference::masked;

const CHARTS: usize = 2_000;

/// Filters of which some differ in one byte alone.
const FILTERS: [u16; 8] = [0, 1, 2, 255, 256, 257, 65_280, 65_535];

#[test]
fn chart_y_with_all_filters() {
    let mut archive = Archive::new();
    for one in FILTERS {
        for other in FILTERS {
            let chart = chart_y([one, other], &[]);
            assert_eq!(archive.agree(&chart), 66_056, "{one} {other}");
            let answer = if one == other { 2 } else { 0 };
            assert_eq!(
                archive.pair(&chart, OUTERMOST, 2, 5),
                answer,
                "{one} {other}"
            );
            assert_eq!(archive.pair(&chart, OUTERMOST, 2, 2), 2, "{one} {other}");
            let verdict = if one == other { 0 } else { 3 };
            assert_eq!(
                archive.judge(&chart, OUTERMOST, &[2, 2, 5, 5, 5, 2]),
                verdict
            );
        }
    }
}

/// Every field of chart Y's trailer, a byte up, a byte down, and by the other edition.
#[test]
fn trailers() {
    let mut archive = Archive::new();
    let chart = chart_y([1, 2], &[]);
    for at in chart.len() - 16..chart.len() {
        for change in [1, 2, 3, 4, 254, 255] {
            let mut chart = chart.clone();
            chart[at] = chart[at].wrapping_add(change);
            assert!(archive.agree(&chart) < 0, "byte {at}, {change}");
        }
    }
    assert_eq!(archive.agree(&damage::other_edition(chart)), -4);
    assert_eq!(archive.agree(&damage::other_edition(chart_k())), 197_381);
}

#[test]
fn the_longest_chart() {
    let mut archive = Archive::new();
    let chart = longest();
    assert_eq!(archive.agree(&chart), 192 + 256 * 2 + 65_536);
    assert_eq!(archive.agree(&chart[96..]), -4);
    assert_eq!(archive.agree(&[&[0], &chart[..]].concat()), -4);
}

/// A chart with a masked construct, small or large.
fn with_masked(random: &mut Random) -> ChartBuilder {
    loop {
        let filters = random.pick(&[NEAR_FILTERS, FAR_FILTERS]);
        let shape = match random.percent(10) {
            true => Shape {
                filters,
                ..Shape::large(random)
            },
            false => Shape::masked(random, filters),
        };
        let chart = valid(random, &shape);
        let mut kinds = chart.constructs.iter().map(|x| x.kind);
        if kinds.any(|kind| kind == Construct::MASTER) {
            return chart;
        }
    }
}

#[test]
fn drawn_and_damaged_charts() {
    let mut archive = Archive::new();
    let mut random = Random::new(11);
    for _ in 0..CHARTS {
        let mut chart = with_masked(&mut random);
        assert_eq!(chart.edition, masked::EDITION);
        assert!(archive.agree(&chart.bytes()) > 0);
        assert_eq!(archive.agree(&damage::other_edition(chart.bytes())), -4);
        archive.agree(&damage::scattered(&mut random, chart.bytes()));
        if chart.constructs.len() < 48 {
            let bytes = damage::wrong_filter(&mut random, &mut chart);
            assert_eq!(archive.agree(&bytes), -6);
        }
    }
}
