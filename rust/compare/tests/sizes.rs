//! Regions of known size (02, Note 10) through the three calls of the archive that name one: known answers,
//! drawn charts in each region at all sizes that tell something, and the order of the refusal of a size.

use charts::random::Random;
use charts::valid::{valid, Shape, FAR_FILTERS, NEAR_FILTERS};
use compare::regions::{regions_of, OUTERMOST};
use compare::sizes::{any_size, BEYOND, SIZES};
use compare::Archive;
use reference::known::*;
use reference::sizes;

const CHARTS: usize = 1_500;
const FILL: u8 = 0x5A;

#[test]
fn known_answers() {
    let mut archive = Archive::new();
    let y = chart_y([1, 2], &[]);
    for (chart, size, a, b, answer) in [
        (&y, 1, 2, 5, 6),
        (&y, 2, 2, 5, 7),
        (&y, 2, 2, 2, 2),
        (&y, 3, 2, 5, 0),
        (&chart_y([0, 65_535], &[]), 1_024, 2, 5, 7),
        (&chart_y([0, 1_024], &[]), 1_024, 5, 1, 7),
        (&chart_y([0, 1_023], &[]), 1_024, 2, 5, 0),
        (&chart_s(1, &[]), 1, 2, 2, 6),
        (&chart_s(1, &[]), 2, 2, 2, 3),
        (&chart_k(), 2, 1, 3, 0),
        (&chart_k(), 1, 1, 3, 6),
        (&chart_k(), 1, 0, 3, -13),
    ] {
        let number = archive.pair_sized(chart, OUTERMOST, size, a, b);
        assert_eq!(number, answer, "{size}: {a} {b}");
    }
    assert_eq!(archive.judge_sized(&y, OUTERMOST, 2, &[2, 2, 2, 5]), 0);
    assert_eq!(archive.judge_sized(&y, OUTERMOST, 3, &[2, 2, 2, 5]), 2);
    let mut out = [FILL; 27];
    assert_eq!(archive.sheet_sized(&chart_k(), OUTERMOST, 1, &mut out), 25);
    for (at, &answer) in out[..25].iter().enumerate() {
        let open = at / 5 % 2 == 1 && at % 5 % 2 == 1;
        assert_eq!(answer, if open { 6 } else { 255 }, "entry {at}");
    }
    assert_eq!(out[25..], [FILL; 2]);
}

/// Every pair, the whole sheet and the list of all pairs of one region, for one size.
fn agree(archive: &mut Archive, chart: &[u8], region: usize, size: usize, nodes: usize) {
    let (number, threads) = (region as u64, size as u64);
    let mut open = Vec::new();
    for a in 0..nodes {
        for b in 0..nodes {
            let ours = archive.pair_sized(chart, region, size, a, b);
            let theirs = sizes::pair(chart, number, threads, a as u64, b as u64);
            assert_eq!(ours, theirs, "{region}, {size}: {a} {b}, {chart:02X?}");
            if theirs >= 0 {
                open.extend([a as u8, b as u8]);
            }
        }
    }
    let ours = archive.judge_sized(chart, region, size, &open);
    let theirs = sizes::judge(chart, number, threads, &open);
    assert_eq!(ours, theirs, "{region}, {size}, {chart:02X?}");
    assert_sheet(archive, chart, region, size, nodes);
}

fn assert_sheet(archive: &mut Archive, chart: &[u8], region: usize, size: usize, nodes: usize) {
    let length = nodes * nodes;
    for room in [length.saturating_sub(1), length, length + 11] {
        let (mut ours, mut theirs) = (vec![FILL; room], vec![FILL; room]);
        let written = archive.sheet_sized(chart, region, size, &mut ours);
        let number = sizes::sheet(chart, region as u64, size as u64, &mut theirs);
        assert_eq!(written, number, "{region}, {size}, {chart:02X?}");
        assert_eq!(ours, theirs, "{region}, {size}, {chart:02X?}");
    }
}

#[test]
fn known_charts_at_all_sizes() {
    let mut archive = Archive::new();
    for chart in [
        chart_k(),
        chart_x(&[]),
        chart_y([0, 1], &[(6, 1)]),
        chart_y([256, 1_023], &[]),
        chart_y([1_024, 65_535], &[]),
        chart_z(&[]),
        chart_t(2, &[]),
        masters_apart(&[(3, 5)]),
    ] {
        let nodes = (archive.admit(&chart) % 256) as usize;
        for region in regions_of(&chart) {
            for size in SIZES.into_iter().chain(BEYOND) {
                agree(&mut archive, &chart, region, size, nodes);
            }
        }
    }
}

#[test]
fn drawn_charts() {
    let mut archive = Archive::new();
    let mut random = Random::new(10);
    for turn in 0..CHARTS {
        let filters = random.pick(&[NEAR_FILTERS, NEAR_FILTERS, FAR_FILTERS]);
        let shape = match turn % 3 {
            0 => Shape {
                filters,
                ..Shape::nested(&mut random)
            },
            1 => Shape::small(&mut random),
            _ => Shape::masked(&mut random, filters),
        };
        let chart = valid(&mut random, &shape);
        for region in regions_of(&chart.bytes()) {
            let size = any_size(&mut random);
            agree(
                &mut archive,
                &chart.bytes(),
                region,
                size,
                chart.nodes.len(),
            );
        }
    }
}

/// Large charts, with up to 48 masked constructs, and the longest one, with the filters 0 to 47.
#[test]
fn large_charts() {
    let mut archive = Archive::new();
    let mut random = Random::new(1_024);
    for _ in 0..150 {
        let shape = Shape::large(&mut random);
        let chart = valid(&mut random, &shape);
        let size = any_size(&mut random);
        let region = random.pick(&regions_of(&chart.bytes()));
        let nodes = chart.nodes.len();
        assert_sheet(&mut archive, &chart.bytes(), region, size, nodes);
    }
    for size in [1, 2, 17, 47, 48, 1_024] {
        assert_sheet(&mut archive, &longest(), OUTERMOST, size, 192);
    }
}

/// A number that is no size is refused after all else, and nothing is written.
#[test]
fn refusals_in_order() {
    let mut archive = Archive::new();
    let chart = chart_z(&[]);
    for size in BEYOND {
        for region in [0, OUTERMOST] {
            for (claims, row) in [
                (&[][..], 21),
                (&[3, 3], 21),
                (&[3], 12),
                (&[3, 0, 3], 12),
                (&[3, 3, 0, 3], 13),
            ] {
                let number = archive.judge_sized(&chart, region, size, claims);
                assert_eq!(number, -row, "{size}, {claims:?}");
            }
            for (a, b, row) in [(3, 3, 21), (3, 0, 13), (usize::MAX, 3, 13), (8, 3, 13)] {
                let number = archive.pair_sized(&chart, region, size, a, b);
                assert_eq!(number, -row, "{size}, {a} {b}");
            }
            for (room, row) in [(0, 11), (63, 11), (64, 21), (70, 21)] {
                let mut out = vec![FILL; room];
                let number = archive.sheet_sized(&chart, region, size, &mut out);
                assert_eq!(number, -row, "{size}, {room} bytes");
                assert_eq!(out, vec![FILL; room]);
            }
        }
        for region in [1, 254, 256, usize::MAX] {
            assert_eq!(archive.judge_sized(&chart, region, size, &[0]), -23);
            assert_eq!(archive.pair_sized(&chart, region, size, 0, 0), -23);
            assert_eq!(archive.sheet_sized(&chart, region, size, &mut []), -23);
        }
        assert_eq!(archive.judge_sized(&chart[1..], 9, size, &[0]), -4);
    }
}

/// What is refused without a size is refused with one, by the same number; an answer for teams of any size
/// that is a never is one for each size.
#[test]
fn nevers_of_any_size_are_nevers_of_each() {
    let mut archive = Archive::new();
    let mut random = Random::new(7);
    for _ in 0..CHARTS {
        let shape = Shape::masked(&mut random, NEAR_FILTERS);
        let chart = valid(&mut random, &shape);
        let (bytes, nodes) = (chart.bytes(), chart.nodes.len());
        let mut any = vec![FILL; nodes * nodes];
        archive.sheet(&bytes, OUTERMOST, &mut any);
        for size in 2..=4 {
            let mut of_size = vec![FILL; nodes * nodes];
            archive.sheet_sized(&bytes, OUTERMOST, size, &mut of_size);
            for (&any, &of_size) in any.iter().zip(&of_size) {
                assert!(of_size == any || (of_size == 7 && any != 255));
            }
        }
    }
}
