//! The charts with known answers of 01, Admit's numbers for them, and small charts for each of the
//! pair rules.

use reference::builder::ChartBuilder;
use reference::calls::admit;
use reference::chart::Construct;
use reference::known::*;
use reference::regions::outermost::pair;

const NONE: u8 = Construct::NONE;

#[test]
fn starred_answers() {
    let (single, master) = (Construct::SINGLE, Construct::MASTER);
    let critical = Construct::CRITICAL;
    let answers = [
        (chart_k(), 1, 3, 0),
        (chart_s(single, &[]), 2, 2, 3),
        (chart_s(single, &[]), 1, 2, 0),
        (chart_s(single, &[]), 3, 3, 0),
        (chart_s(single, &[(3, 1)]), 2, 2, 0),
        (chart_s(master, &[(3, 1)]), 2, 2, 2),
        (chart_s(critical, &[]), 2, 2, 0),
        (chart_d(&[]), 3, 3, 4),
        (chart_d(&[]), 2, 3, 0),
        (chart_d(&[(5, 1)]), 3, 3, 0),
        (chart_s_through_barrier(), 2, 2, 3),
    ];
    for (index, (chart, a, b, answer)) in answers.into_iter().enumerate() {
        assert_eq!(pair(&chart, a, b), answer, "starred answer {index}");
        assert_eq!(pair(&chart, b, a), answer, "starred answer {index}");
    }
}

#[test]
fn figure_2b_of_the_paper() {
    let chart = figure_2b();
    let named = |a: u64, b: u64| pair(&chart, a - 1, b - 1);
    assert_eq!(reference::admit(&chart).map(|x| x.phases), Ok(8));
    assert_eq!(named(5, 6), 1);
    assert_eq!(named(5, 9), 0);
    assert_eq!(named(8, 9), 1, "common starts, but no common end");
}

#[test]
fn numbers_of_admit() {
    let numbers = [
        (chart_k(), 197_381),
        (row(2, 2), 514),
        (figure_2b(), 525_837),
        (chart_s(Construct::SINGLE, &[]), 66_053),
        (chart_d(&[]), 66_055),
        (chart_s_through_barrier(), 131_846),
    ];
    for (chart, expected) in numbers {
        assert_eq!(admit(&chart), expected);
    }
}

#[test]
fn limits_of_nodes_and_barriers() {
    assert_eq!(pair(&row(2, 2), 0, 0), -13);
    assert_eq!(admit(&row(192, 2)), 192 + 256 * 2 + 65_536);
    assert_eq!(admit(&row(193, 2)), -3);
    assert_eq!(admit(&row(192, 64)), 192 + 256 * 64 + 65_536);
    assert_eq!(admit(&row(192, 65)), -8);
}

#[test]
fn chart_s_as_bytes() {
    let bytes = [
        0x01, 0xFF, 0, 0, 0x02, 0, 0, 0, 0, 0, 0, 0, 0x03, 0, 0, 0, 0x01, 0xFF, 0, 0, 0, 1, 1, 2,
        2, 3, 3, 4, 0x01, 0xFF, 0, 0, 1, 0, 5, 0, 4, 0, 1, 0, 0x30, 0, 0x1C, 0, 0x14, 0, 0x4F,
        0x43,
    ];
    assert_eq!(chart_s(Construct::SINGLE, &[]), bytes);
}

#[test]
fn chart_k_has_the_printed_distances() {
    let chart = chart_k();
    assert_eq!(chart.len(), 46);
    assert_eq!(
        chart[chart.len() - 8..chart.len() - 2],
        [46, 0, 26, 0, 16, 0]
    );
}

/// A chart of nodes in a row, from Start to Finish, each construct around one plain node.
fn constructs_in_a_row(kinds: &[u8]) -> ChartBuilder {
    let mut chart = ChartBuilder::new();
    chart.barrier();
    for &kind in kinds {
        let construct = chart.construct(kind, NONE, 0);
        chart.begin(construct);
        chart.plain(construct);
        chart.end(construct);
    }
    chart.barrier();
    chart.row();
    chart
}

#[test]
fn two_masters_exclude_each_other_and_two_singles_do_not() {
    let masters = constructs_in_a_row(&[Construct::MASTER, Construct::MASTER]).bytes();
    assert_eq!(pair(&masters, 2, 5), 2);
    let singles = constructs_in_a_row(&[Construct::SINGLE, Construct::SINGLE]).bytes();
    assert_eq!(pair(&singles, 2, 5), 0);
    assert_eq!(pair(&singles, 5, 5), 3);
}

#[test]
fn no_common_phase_comes_before_the_other_rules() {
    let mut chart = ChartBuilder::new();
    let first = chart.construct(Construct::MASTER, NONE, 0);
    let second = chart.construct(Construct::MASTER, NONE, 0);
    chart.barrier();
    for construct in [first, second] {
        chart.begin(construct);
        chart.plain(construct);
        chart.end(construct);
        chart.barrier();
    }
    chart.row();
    assert_eq!(pair(&chart.bytes(), 2, 6), 1);
    assert_eq!(pair(&chart.bytes(), 2, 2), 2);
}

#[test]
fn inside_is_at_any_depth() {
    let mut chart = ChartBuilder::new();
    let single = chart.construct(Construct::SINGLE, NONE, 0);
    let critical = chart.construct(Construct::CRITICAL, single, 7);
    chart.barrier();
    chart.begin(single);
    chart.begin(critical);
    chart.plain(critical);
    chart.end(critical);
    chart.end(single);
    chart.barrier();
    chart.row();
    let bytes = chart.bytes();
    assert_eq!(pair(&bytes, 3, 3), 3);
    assert_eq!(
        pair(&bytes, 2, 3),
        3,
        "the critical's begin is inside the single"
    );
    assert_eq!(pair(&bytes, 1, 3), 0);
}

#[test]
fn two_ordereds_of_one_do() {
    let mut chart = ChartBuilder::new();
    let outer = chart.construct(Construct::DO, NONE, 0);
    let ordereds = [0, 1].map(|_| chart.construct(Construct::ORDERED, outer, 0));
    chart.barrier();
    chart.begin(outer);
    for ordered in ordereds {
        chart.begin(ordered);
        chart.plain(ordered);
        chart.end(ordered);
    }
    chart.end(outer);
    chart.barrier();
    chart.row();
    assert_eq!(pair(&chart.bytes(), 3, 6), 4);
    chart.edge(8, 1);
    assert_eq!(pair(&chart.bytes(), 3, 6), 0);
}

#[test]
fn a_return_through_a_barrier_is_no_return() {
    let mut chart = constructs_in_a_row(&[Construct::SINGLE]);
    assert_eq!(pair(&chart.bytes(), 2, 2), 3);
    let bypass = chart.nodes.len() - 1;
    chart.nodes[bypass].kind = 0;
    let finish = chart.barrier();
    chart.edge(bypass, finish);
    chart.edge(bypass, 1);
    assert_eq!(pair(&chart.bytes(), 2, 2), 0, "through a plain node");
    chart.nodes[bypass].kind = 1;
    assert_eq!(pair(&chart.bytes(), 2, 2), 3, "through a barrier");
}

#[test]
fn a_barrier_in_one_branch_only_is_admitted() {
    let mut chart = ChartBuilder::new();
    chart.barrier();
    chart.plain(NONE);
    chart.barrier();
    chart.plain(NONE);
    chart.barrier();
    chart.row();
    chart.edge(1, 3);
    let bytes = chart.bytes();
    assert_eq!(admit(&bytes), 5 + 256 * 3 + 65_536 * 3);
    assert_eq!(pair(&bytes, 1, 3), 0);
}
