//! Charts with sections (02, Note 1), valid and damaged, through every call of the archive: the known
//! ones, and draws of which each has a sections construct.

use charts::damage;
use charts::random::Random;
use charts::valid::{valid, Shape};
use compare::regions::OUTERMOST;
use compare::Archive;
use reference::builder::ChartBuilder;
use reference::chart::Construct;
use reference::known::chart_x;

const CHARTS: usize = 3_000;

/// A chart with a sections construct, small or large.
fn with_sections(random: &mut Random) -> ChartBuilder {
    loop {
        let shape = match random.percent(20) {
            true => Shape::large(random),
            false => Shape::small(random),
        };
        let chart = valid(random, &shape);
        let mut kinds = chart.constructs.iter().map(|x| x.kind);
        if kinds.any(|kind| kind == Construct::SECTIONS) {
            return chart;
        }
    }
}

#[test]
fn chart_x_and_edges_added_to_it() {
    let mut archive = Archive::new();
    assert_eq!(archive.agree(&chart_x(&[])), 66_057);
    for from in 0..9 {
        for to in 0..9 {
            archive.agree(&chart_x(&[(from, to)]));
        }
    }
    assert_eq!(archive.admit(&chart_x(&[(4, 5)])), -9);
    assert_eq!(archive.pair(&chart_x(&[]), OUTERMOST, 2, 4), 5);
    assert_eq!(archive.pair(&chart_x(&[(7, 1)]), OUTERMOST, 2, 4), 0);
    assert_eq!(
        archive.judge(&chart_x(&[]), OUTERMOST, &[3, 3, 2, 4, 3, 5]),
        3
    );
}

#[test]
fn drawn_and_damaged_charts() {
    let mut archive = Archive::new();
    let mut random = Random::new(7);
    let mut edges = 0;
    for _ in 0..CHARTS {
        let mut chart = with_sections(&mut random);
        assert!(archive.agree(&chart.bytes()) > 0);
        if let Some(edge) = damage::between_sections(&mut random, &chart) {
            let mut joined = chart.clone();
            joined.edges[0] = edge;
            assert_eq!(archive.agree(&joined.bytes()), -9);
            edges += 1;
        }
        if chart.constructs.len() < 48 && chart.nodes.len() < 192 {
            let bytes = damage::wrong_in_sections(&mut random, &mut chart);
            assert_eq!(archive.agree(&bytes), -6);
        }
    }
    assert!(edges > CHARTS / 2, "{edges}");
}
