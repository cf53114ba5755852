//! Distances of charts that can be checked by eye, and the call that writes them.

use reference::builder::ChartBuilder;
use reference::chart::Construct;
use reference::distances::{distances, write};
use reference::known::*;
use reference::regions::{outermost, read_outermost};

const FILL: u8 = 0xAA;

fn of(chart: &[u8]) -> Vec<u8> {
    distances(&read_outermost(chart).expect("an admitted chart"))
}

#[test]
fn known_charts() {
    assert_eq!(of(&chart_k()), [255, 1, 255, 1, 255]);
    assert_eq!(of(&row(2, 2)), [255, 255]);
    // the way on from a barrier counts from there
    assert_eq!(of(&chart_s_through_barrier()), [255, 1, 2, 3, 255, 255]);
    let figure = [255, 1, 255, 255, 1, 1, 2, 3, 3, 255, 255, 1, 255];
    assert_eq!(of(&figure_2b()), figure);
    assert_eq!(of(&chart_s(Construct::SINGLE, &[])), [255, 1, 2, 3, 255]);
    assert_eq!(of(&chart_d(&[])), [255, 1, 2, 3, 4, 5, 255]);
    assert_eq!(of(&chart_x(&[])), [255, 1, 2, 3, 4, 2, 3, 4, 255]);
}

/// Node 3 has the starts 0 and 4, and the nearer one counts, which is the later of the two.
#[test]
fn the_nearest_of_two_starts() {
    let mut chart = ChartBuilder::new();
    chart.barrier();
    for _ in 1..=3 {
        chart.plain(Construct::NONE);
    }
    chart.barrier();
    chart.barrier();
    chart.row();
    chart.edge(4, 3);
    assert_eq!(of(&chart.bytes()), [255, 1, 2, 1, 255, 255]);
}

#[test]
fn regions_of_chart_z() {
    let chart = chart_z(&[]);
    for (region, expected) in [
        (255, [255, 1, 2, 3, 4, 5, 6, 255]),
        (0, [255, 255, 1, 2, 3, 255, 255, 255]),
    ] {
        let mut out = [FILL; 8];
        assert_eq!(write(&chart, region, &mut out[..7]), -11);
        assert_eq!(out, [FILL; 8]);
        assert_eq!(write(&chart, region, &mut out), 8);
        assert_eq!(out, expected);
    }
    let mut out = [FILL; 8];
    for region in [1, 254, 256, u64::MAX] {
        assert_eq!(write(&chart, region, &mut out), -23);
        assert_eq!(write(&chart, region, &mut []), -23);
        assert_eq!(out, [FILL; 8]);
    }
}

#[test]
fn the_longest_path() {
    let mut expected: Vec<u8> = (0..=191).collect();
    (expected[0], expected[191]) = (255, 255);
    assert_eq!(of(&row(192, 2)), expected);
}

#[test]
fn the_call_writes_its_result_alone() {
    let mut out = [FILL; 9];
    assert_eq!(outermost::distances(&chart_k(), &mut out), 5);
    assert_eq!(out, [255, 1, 255, 1, 255, FILL, FILL, FILL, FILL]);
    let mut short = [FILL; 4];
    assert_eq!(outermost::distances(&chart_k(), &mut short), -11);
    assert_eq!(outermost::distances(&chart_k()[1..], &mut short), -4);
    assert_eq!(short, [FILL; 4]);
}
