//! Five of the calls on lent buffers: lengths, bytes past a result, and refusals 11 to 13 with their
//! order after a chart's own refusals.

use reference::calls::admit;
use reference::chart::Construct;
use reference::known::*;
use reference::regions::outermost::{judge, pair, phases, sheet};

const FILL: u8 = 0xAA;

#[test]
fn phases_of_chart_k() {
    let mut out = [FILL; 100];
    assert_eq!(phases(&chart_k(), &mut out), 80);
    let mut expected = [0u8; 80];
    (expected[16], expected[24]) = (3, 2);
    (expected[48], expected[56]) = (2, 6);
    assert_eq!(out[..80], expected);
    assert_eq!(
        out[80..],
        [FILL; 20],
        "bytes past the result keep their values"
    );
}

#[test]
fn sheet_of_chart_k() {
    let mut out = [FILL; 30];
    assert_eq!(sheet(&chart_k(), &mut out), 25);
    let mut expected = [255u8; 25];
    for (a, b) in [(1, 1), (1, 3), (3, 1), (3, 3)] {
        expected[5 * a + b] = 0;
    }
    assert_eq!(out[..25], expected);
    assert_eq!(out[25..], [FILL; 5]);
}

#[test]
fn short_buffers_are_refused_and_kept() {
    let chart = chart_k();
    for length in [0, 1, 24, 79] {
        let mut out = vec![FILL; length];
        assert_eq!(phases(&chart, &mut out), -11);
        assert_eq!(out, vec![FILL; length]);
    }
    for length in [0, 5, 24] {
        let mut out = vec![FILL; length];
        assert_eq!(sheet(&chart, &mut out), -11);
        assert_eq!(out, vec![FILL; length]);
    }
    assert_eq!(phases(&chart, &mut [0; 80]), 80);
    assert_eq!(sheet(&chart, &mut [0; 25]), 25);
}

#[test]
fn a_refused_chart_writes_nothing_and_comes_before_11_to_13() {
    let mut chart = chart_k();
    chart[0] = 9;
    let mut out = [FILL; 80];
    assert_eq!(phases(&chart, &mut out), -5);
    assert_eq!(sheet(&chart, &mut out), -5);
    assert_eq!(out, [FILL; 80]);
    assert_eq!(sheet(&chart, &mut []), -5);
    assert_eq!(pair(&chart, 0, 0), -5);
    assert_eq!(judge(&chart, &[0]), -5);
}

#[test]
fn pair_refuses_barriers_and_numbers_beyond() {
    let chart = chart_k();
    for (a, b) in [
        (0, 1),
        (1, 2),
        (4, 1),
        (5, 1),
        (1, 255),
        (256, 1),
        (1, u64::MAX),
    ] {
        assert_eq!(pair(&chart, a, b), -13, "{a} {b}");
    }
}

#[test]
fn judge_passes_or_tells_the_first_pair_answered_0() {
    let single = chart_s(Construct::SINGLE, &[]);
    assert_eq!(judge(&single, &[]), 0);
    assert_eq!(judge(&single, &[2, 2]), 0);
    assert_eq!(judge(&single, &[2, 2, 2, 2, 1, 2, 3, 3]), 3);
    assert_eq!(judge(&chart_k(), &[1, 3]), 1);
    assert_eq!(judge(&chart_k(), &[]), 0);
}

#[test]
fn judge_refuses_the_whole_list_before_any_verdict() {
    let chart = chart_k();
    assert_eq!(judge(&chart, &[1, 3, 0]), -12, "12 comes before 13");
    assert_eq!(judge(&chart, &[1]), -12);
    assert_eq!(
        judge(&chart, &[1, 3, 1, 2]),
        -13,
        "13 comes before the verdict"
    );
    assert_eq!(judge(&chart, &[1, 5]), -13);
    assert_eq!(judge(&chart, &[255, 1]), -13);
}

#[test]
fn the_tag_is_not_read() {
    let mut chart = chart_d(&[]);
    let (mut before, mut after) = ([0; 112], [0; 112]);
    assert_eq!(phases(&chart, &mut before), 112);
    let number = admit(&chart);
    for node in 0..7 {
        chart[4 * node + 2] = 0xFF;
        chart[4 * node + 3] = node as u8;
    }
    assert_eq!(admit(&chart), number);
    assert_eq!(phases(&chart, &mut after), 112);
    assert_eq!(before, after);
}
