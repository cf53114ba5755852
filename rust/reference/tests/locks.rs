//! Locks that can be dropped: what keeps the threads inside criticals of one name apart, in finished runs and in all,
//! for which teams and in which region, and the refusals in their order.

use reference::chart::Construct;
use reference::known::*;
use reference::locks::write;
use reference::regions::OUTERMOST;
use reference::sizes::Teams;

const CRITICAL: u8 = Construct::CRITICAL;
const FILL: u8 = 0xAA;

/// What is written for a region.
fn locks_in(chart: &[u8], region: u8, teams: Teams) -> Vec<u8> {
    let mut out = [FILL; 60];
    let number = write(chart, region.into(), teams, &mut out);
    let length = usize::try_from(number).expect("no refusal");
    assert!(out[length..].iter().all(|&byte| byte == FILL));
    out[..length].to_vec()
}

fn locks(chart: &[u8]) -> Vec<u8> {
    locks_in(chart, OUTERMOST, Teams::OfAnySize)
}

fn locks_of(chart: &[u8], size: u64) -> Vec<u8> {
    locks_in(chart, OUTERMOST, Teams::Of(size))
}

#[test]
fn known_charts() {
    assert_eq!(locks(&chart_l()), [255, 2, 0]);
    assert_eq!(locks_of(&chart_l(), 1), [255, 2, 2]);
    assert_eq!(locks_of(&chart_l(), 2), [255, 2, 0]);
    assert_eq!(locks(&chart_m()), [255, 1, 255, 1]);
    assert_eq!(locks_of(&chart_m(), 1), [255, 2, 255, 2]);
    assert_eq!(locks_of(&chart_m(), 1_024), [255, 1, 255, 1]);
    assert_eq!(locks(&chart_s(CRITICAL, &[])), [0]);
    assert_eq!(locks(&chart_s(Construct::SINGLE, &[])), [255]);
    assert_eq!(locks(&chart_x(&[])), [255; 3]);
    assert_eq!(locks(&chart_k()), []);
}

/// Its begin and its end are not inside a critical; those of what is nested in it are.
#[test]
fn frames_are_not_inside() {
    assert_eq!(locks(&nested(&[(CRITICAL, 0)], false).bytes()), [2]);
    let around = nested(&[(CRITICAL, 1), (CRITICAL, 2)], false);
    assert_eq!(locks(&around.bytes()), [0, 2]);
}

/// What is asked about are the nodes inside all criticals of the name, at any depth, and of no other name.
#[test]
fn common_names() {
    let single = Construct::SINGLE;
    for (one, other, expected) in [
        (
            &[(single, 0), (CRITICAL, 5)][..],
            &[(single, 0), (CRITICAL, 5)][..],
            &[255, 0, 255, 0][..],
        ),
        (
            &[(single, 0), (CRITICAL, 5)],
            &[(single, 0), (CRITICAL, 261)],
            &[255, 2, 255, 2],
        ),
        (
            &[(single, 0), (CRITICAL, 0)],
            &[(CRITICAL, 0)],
            &[255, 0, 0],
        ),
        (
            &[(single, 0), (CRITICAL, 0)],
            &[(CRITICAL, 1)],
            &[255, 2, 0],
        ),
        (
            &[(single, 0), (CRITICAL, 5), (CRITICAL, 7)],
            &[(CRITICAL, 7)],
            &[255, 2, 0, 0],
        ),
        (
            &[(single, 0), (CRITICAL, 5)],
            &[(single, 0), (CRITICAL, 7), (CRITICAL, 5)],
            &[255, 0, 255, 2, 0],
        ),
    ] {
        let (chart, _) = in_a_row(&[one, other]);
        assert_eq!(locks(&chart), expected, "{one:?} {other:?}");
    }
}

/// Each rule that excludes, and what undoes it.
#[test]
fn every_rule() {
    let chain = |kind: u8| nested(&[(kind, 0), (CRITICAL, 3)], true);
    let (single, master) = (Construct::SINGLE, Construct::MASTER);
    assert_eq!(locks(&chain(single).bytes()), [255, 2]);
    assert_eq!(locks(&chain(master).bytes()), [255, 2]);
    assert_eq!(locks(&chain(Construct::DO).bytes()), [255, 0]);
    let mut returning = chain(single);
    returning.edge(5, 1);
    assert_eq!(locks(&returning.bytes()), [255, 0]);
    let mut returning = chain(master);
    returning.edge(5, 1);
    assert_eq!(locks(&returning.bytes()), [255, 2]);
    let kinds = [(Construct::DO, 0), (Construct::ORDERED, 0), (CRITICAL, 3)];
    let mut ordered = nested(&kinds, true);
    assert_eq!(locks(&ordered.bytes()), [255, 255, 2]);
    ordered.edge(7, 1);
    assert_eq!(locks(&ordered.bytes()), [255, 255, 0]);
    let kinds = [
        (Construct::SECTIONS, 0),
        (Construct::SECTION, 0),
        (CRITICAL, 3),
    ];
    let mut section = nested(&kinds, true);
    assert_eq!(locks(&section.bytes()), [255, 255, 2]);
    section.edge(7, 1);
    assert_eq!(locks(&section.bytes()), [255, 255, 0]);
}

/// A masked of filter 2 around a critical and one of filter 1 around another: the team has both threads, one or none.
#[test]
fn filters_and_sizes() {
    let chain = [(Construct::MASTER, 0), (CRITICAL, 3)];
    let (bytes, _) = in_a_row(&[&chain, &chain]);
    assert_eq!(locks(&bytes), [255, 2, 255, 2]);
    let outermost = reference::regions::read_outermost(&bytes).expect("a chart");
    let mut chart = reference::builder::ChartBuilder::from_chart(&outermost);
    chart.edition = reference::masked::EDITION;
    (chart.constructs[0].filter, chart.constructs[2].filter) = (2, 1);
    let chart = chart.bytes();
    assert_eq!(locks(&chart), [255, 0, 255, 0]);
    for (size, expected) in [(1, 2), (2, 2), (3, 0), (1_024, 0)] {
        let bytes = locks_of(&chart, size);
        assert_eq!(bytes, [255, expected, 255, expected], "{size}");
    }
}

/// The criticals of a region are its own; what is inside a deeper region is inside the critical around it.
#[test]
fn regions() {
    let parallel = Construct::PARALLEL;
    let any = Teams::OfAnySize;
    let inner = nested(&[(parallel, 0), (CRITICAL, 0)], true).bytes();
    assert_eq!(locks_in(&inner, OUTERMOST, any), [255, 255]);
    assert_eq!(locks_in(&inner, 0, any), [255, 0]);
    let around = nested(&[(CRITICAL, 0), (parallel, 0), (CRITICAL, 0)], true).bytes();
    assert_eq!(locks_in(&around, OUTERMOST, any), [0, 255, 255]);
    assert_eq!(locks_in(&around, 1, any), [255, 255, 0]);
    let empty = nested(&[(CRITICAL, 0), (parallel, 0)], false).bytes();
    assert_eq!(locks_in(&empty, OUTERMOST, any), [0, 255]);
    assert_eq!(locks_in(&empty, 1, any), [255, 255]);
}

/// 23, then 11, then 21; a refusal writes nothing.
#[test]
fn refusals_in_order() {
    let chart = chart_l();
    let refused = |chart: &[u8], region: u64, teams: Teams, room: usize, row: i64| {
        let mut out = vec![FILL; room];
        assert_eq!(write(chart, region, teams, &mut out), -row, "{teams:?}");
        assert_eq!(out, vec![FILL; room]);
    };
    let mut broken = chart.clone();
    broken[0] = 9;
    for size in [0, 1_025, 65_537, 1 << 32, u64::MAX] {
        let teams = Teams::Of(size);
        refused(&broken, 9, teams, 0, 5);
        refused(&chart, 0, teams, 0, 23);
        refused(&chart, 256, teams, 3, 23);
        refused(&chart, 255, teams, 2, 11);
        refused(&chart, 255, teams, 3, 21);
        refused(&chart, 255, teams, 9, 21);
    }
    refused(&chart, 1, Teams::OfAnySize, 3, 23);
    refused(&chart, 255, Teams::OfAnySize, 2, 11);
    refused(&chart, 255, Teams::Of(1), 0, 11);
    assert_eq!(write(&chart_k(), 255, Teams::OfAnySize, &mut []), 0);
    assert_eq!(write(&chart_k(), 255, Teams::Of(0), &mut []), -21);
}
