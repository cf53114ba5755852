//! Regions of known size (02, Note 10): answers 6 and 7, the sizes that are refused, and the order of that
//! refusal, the last of each call.

use reference::calls;
use reference::chart::Construct;
use reference::known::*;
use reference::regions::outermost;
use reference::sizes::{judge, pair, sheet};

const OUTERMOST: u64 = 255;
const FILL: u8 = 0xAA;

/// Sizes that are refused, among them some whose low half would be a size.
const OTHERS: [u64; 8] = [
    0,
    1_025,
    2_048,
    65_535,
    65_537,
    1 << 32,
    (1 << 32) + 2,
    u64::MAX,
];

#[test]
fn chart_y_by_size() {
    let chart = chart_y([1, 2], &[]);
    for (size, a, b, answer) in [
        (1, 2, 5, 6),
        (1, 2, 2, 6),
        (1, 1, 3, 6),
        (2, 2, 5, 7),
        (2, 5, 2, 7),
        (2, 5, 5, 7),
        (2, 1, 5, 7),
        (2, 2, 2, 2),
        (2, 1, 2, 0),
        (2, 4, 6, 0),
        (3, 2, 5, 0),
        (3, 5, 5, 2),
        (1_024, 2, 5, 0),
    ] {
        let number = pair(&chart, OUTERMOST, size, a, b);
        assert_eq!(number, answer, "{size}: {a} {b}");
    }
    assert_eq!(outermost::pair(&chart, 2, 5), 0, "of any size");
    assert_eq!(judge(&chart, OUTERMOST, 2, &[2, 5, 5, 5, 2, 2]), 0);
    assert_eq!(judge(&chart, OUTERMOST, 3, &[5, 5, 2, 5]), 2);
    assert_eq!(judge(&chart, OUTERMOST, 1, &[1, 1, 2, 5]), 0);
}

/// Filters at the size and beside it, up to those that no team of a known size has.
#[test]
fn filters_at_the_size() {
    for filter in [1, 2, 3, 255, 256, 1_022, 1_023, 1_024, 1_025, 65_535] {
        let chart = chart_y([0, filter], &[]);
        for size in (2..6).chain([255, 256, 257, 1_023, 1_024]) {
            let answer = if u64::from(filter) < size { 0 } else { 7 };
            assert_eq!(
                pair(&chart, OUTERMOST, size, 2, 5),
                answer,
                "{filter} {size}"
            );
        }
    }
}

/// 6 and 7 come ahead of all other rules; in a team of two or more without such filters nothing changes.
#[test]
fn ahead_of_all_other_rules() {
    let (single, master) = (Construct::SINGLE, Construct::MASTER);
    for (chart, a, b) in [
        (chart_k(), 1, 3),
        (chart_s(single, &[]), 2, 2),
        (chart_s(master, &[(3, 1)]), 2, 2),
        (chart_d(&[]), 3, 3),
        (chart_x(&[]), 3, 3),
        (masters_apart(&[]), 2, 6),
        (figure_2b(), 4, 5),
    ] {
        assert_eq!(pair(&chart, OUTERMOST, 1, a, b), 6);
        for size in [2, 3, 1_024] {
            let number = pair(&chart, OUTERMOST, size, a, b);
            assert_eq!(number, outermost::pair(&chart, a, b), "{size}");
        }
    }
    // no common phase, and a filter at the size
    let mut parted = reference::builder::ChartBuilder::of_edition(2);
    parted.barrier();
    for filter in [2, 3] {
        let masked = parted.masked(Construct::NONE, filter);
        parted.begin(masked);
        parted.plain(masked);
        parted.end(masked);
        parted.barrier();
    }
    parted.row();
    let answers = [2, 3, 4].map(|size| pair(&parted.bytes(), OUTERMOST, size, 2, 6));
    assert_eq!(answers, [7, 7, 1]);
}

#[test]
fn a_masked_of_the_region_that_is_read() {
    let mut chart = one_region(|chart, region| {
        let masked = chart.masked(region, 2);
        chart.begin(masked);
        chart.plain(masked);
        chart.end(masked);
    });
    chart.edition = 2;
    let chart = chart.bytes();
    assert_eq!(pair(&chart, 0, 2, 3, 3), 7);
    assert_eq!(pair(&chart, 0, 3, 3, 3), 2);
    assert_eq!(pair(&chart, OUTERMOST, 2, 3, 3), 0, "deeper");
    assert_eq!(pair(&chart, OUTERMOST, 1, 3, 3), 6);
}

#[test]
fn sheets() {
    let chart = chart_k();
    let mut expected = [255; 25];
    for (a, b) in [(1, 1), (1, 3), (3, 1), (3, 3)] {
        expected[5 * a + b] = 6;
    }
    let mut out = [FILL; 30];
    assert_eq!(sheet(&chart, OUTERMOST, 1, &mut out), 25);
    assert_eq!(out[..25], expected);
    assert_eq!(out[25..], [FILL; 5], "bytes past the result");
    let y = chart_y([1, 2], &[]);
    for size in [1, 2, 3, 1_024] {
        let mut out = [FILL; 64];
        assert_eq!(sheet(&y, OUTERMOST, size, &mut out), 64);
        for (at, &answer) in out.iter().enumerate() {
            let (a, b) = ((at / 8) as u64, (at % 8) as u64);
            let number = pair(&y, OUTERMOST, size, a, b);
            let written = if answer == 255 { -13 } else { answer.into() };
            assert_eq!(number, written, "{size}: {a} {b}");
        }
    }
}

/// 21 "after all older numbers", and after 23, which is straight after 10.
#[test]
fn other_sizes_are_refused_last() {
    let chart = chart_z(&[]);
    let mut broken = chart.clone();
    broken[0] = 9;
    for size in OTHERS {
        for region in [0, OUTERMOST] {
            assert_eq!(pair(&chart, region, size, 3, 3), -21);
            assert_eq!(pair(&chart, region, size, 3, 0), -13);
            assert_eq!(pair(&chart, region, size, u64::MAX, 3), -13);
            assert_eq!(judge(&chart, region, size, &[]), -21);
            assert_eq!(judge(&chart, region, size, &[3, 3]), -21);
            assert_eq!(judge(&chart, region, size, &[3, 3, 0]), -12);
            assert_eq!(judge(&chart, region, size, &[3, 3, 3, 0]), -13);
            let mut out = [FILL; 64];
            assert_eq!(sheet(&chart, region, size, &mut out[..63]), -11);
            assert_eq!(sheet(&chart, region, size, &mut out), -21);
            assert_eq!(out, [FILL; 64], "nothing is written");
            assert_eq!(sheet(&broken, region, size, &mut []), -5);
        }
        assert_eq!(pair(&chart, 1, size, 0, 0), -23);
        assert_eq!(judge(&chart, 256, size, &[0]), -23);
        assert_eq!(sheet(&chart, 1, size, &mut []), -23);
    }
    for size in [1, 1_024] {
        assert_eq!(judge(&chart, 0, size, &[]), 0);
        assert_eq!(pair(&chart, 0, size, 0, 3), -13, "also for one thread");
        assert_eq!(sheet(&chart, 0, size, &mut [0; 64]), 64);
    }
}

/// The form without a size is some size and not the largest.
#[test]
fn the_form_without_a_size_is_kept() {
    let chart = chart_y([1, 65_535], &[]);
    assert_eq!(calls::pair(&chart, OUTERMOST, 2, 5), 0);
    assert_eq!(pair(&chart, OUTERMOST, 1_024, 2, 5), 7);
    assert_eq!(calls::judge(&chart, OUTERMOST, &[2, 5]), 1);
    assert_eq!(judge(&chart, OUTERMOST, 1_024, &[2, 5]), 0);
}
