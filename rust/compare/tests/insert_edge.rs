//! Putting an edge in (02, Note 6): number and every byte of the buffer, on charts of all kinds and both
//! editions, valid and damaged, with edges that fit and others, right and stale receipts, any room.

use charts::random::Random;
use compare::edits::*;
use compare::Archive;
use reference::builder::ChartBuilder;
use reference::chart::{Construct, Edge};
use reference::edits::Receipt;
use reference::known::*;
use reference::refusals::decode_checked;

const CHARTS: usize = 6_000;
const SEED: u64 = 2_026_111_506;

/// Lengths that are beyond every buffer, at which a sum may pass the largest number.
const BEYOND: [usize; 5] = [100_000, 1 << 32, 1 << 63, usize::MAX - 1, usize::MAX];

fn edge(from: u8, to: u8) -> Edge {
    Edge { from, to }
}

fn receipt(length: usize, place: usize) -> Receipt {
    Receipt { length, place }
}

#[test]
fn chart_s_single() {
    let mut archive = Archive::new();
    let chart = chart_s(Construct::SINGLE, &[]);
    for (from, to, place) in [(3, 1, 3), (1, 3, 2), (0, 4, 1), (2, 2, 2)] {
        let mut bytes = buffer(&chart, 9);
        let number = archive.agree_inserted(&mut bytes, 48, receipt(48, place), edge(from, to));
        assert_eq!(number, 50, "{from} {to}");
        let added = [(from.into(), to.into())];
        assert_eq!(bytes[..50], chart_s(Construct::SINGLE, &added));
        assert_eq!(bytes[50..], [FILL; 7]);
    }
    for (room, length, receipt, edge, row) in [
        (2, 51, receipt(48, 3), edge(3, 1), 4),
        (2, 15, receipt(48, 3), edge(3, 1), 1),
        (2, 47, receipt(48, 3), edge(3, 1), 2),
        (0, 48, receipt(48, 3), edge(2, 1), 9),
        (0, 48, receipt(0, 0), edge(1, 2), 9),
        (1, 48, receipt(48, 2), edge(3, 1), 17),
        (1, 48, receipt(48, 3), edge(3, 1), 18),
    ] {
        let mut bytes = buffer(&chart, room);
        let number = archive.agree_inserted(&mut bytes, length, receipt, edge);
        assert_eq!(number, -row, "{room} {length} {receipt:?} {edge:?}");
        assert_eq!(bytes, buffer(&chart, room));
    }
}

/// Each edge between two numbers of nodes, and some beyond, in buffers with and without room, with the right
/// receipt and with each wrong one.
#[test]
fn every_edge_of_known_charts() {
    let mut archive = Archive::new();
    let mut inserted = 0;
    for chart in known() {
        let nodes = (archive.admit(&chart) % 256) as u8;
        let numbers = || (0..=nodes).chain([255]);
        for edge in numbers().flat_map(|from| numbers().map(move |to| edge(from, to))) {
            let right = right_receipt(&chart, edge);
            for room in [0, 1, 2, 3, 40] {
                let mut bytes = buffer(&chart, room);
                let number = archive.agree_inserted(&mut bytes, chart.len(), right, edge);
                inserted += usize::from(number > 0);
            }
            for wrong in wrong_receipts(right) {
                for room in [1, 2] {
                    let mut bytes = buffer(&chart, room);
                    let number = archive.agree_inserted(&mut bytes, chart.len(), wrong, edge);
                    assert!([-9, -17].contains(&number), "{number}");
                }
            }
        }
    }
    assert!(inserted > 500, "{inserted}");
}

/// Numbers that fit no byte, though cut to bytes they were an edge that goes in: 9, in the place of row 9 of
/// the longer chart, and nothing is written.
#[test]
fn numbers_over_a_byte() {
    let mut archive = Archive::new();
    for chart in known() {
        let (fewer, spare) = without_spare_edge(&chart);
        for edge in [spare, edge(0, 1), edge(3, 1)] {
            let right = right_receipt(&fewer, edge);
            for numbers in cut_to(edge) {
                for (room, length, receipt, row) in [
                    (2, fewer.len(), right, 9),
                    (0, fewer.len(), right, 9),
                    (2, fewer.len(), receipt(0, 0), 9),
                    (2, fewer.len() + 3, right, 4),
                    (2, fewer.len() + 1, right, 2),
                    (2, 15, right, 1),
                ] {
                    let mut bytes = buffer(&fewer, room);
                    let number = archive.agree_inserted(&mut bytes, length, receipt, numbers);
                    assert_eq!(number, -row, "{numbers:?} {length} {receipt:?}");
                    assert_eq!(bytes, buffer(&fewer, room));
                }
            }
        }
    }
    let full = longest();
    for numbers in cut_to(edge(100, 50)) {
        let mut bytes = buffer(&full, 2);
        let number = archive.agree_inserted(&mut bytes, full.len(), receipt(0, 0), numbers);
        assert_eq!(number, -3, "{numbers:?}");
    }
}

/// Every length, from nothing to beyond the buffer: 4 there, whatever the bytes are.
#[test]
fn every_length() {
    let mut archive = Archive::new();
    let chart = chart_y([1, 2], &[]);
    let right = receipt(chart.len(), 3);
    for room in [0, 2, 20] {
        let whole = buffer(&chart, room);
        for length in (0..whole.len() + 4).chain(BEYOND) {
            let mut bytes = whole.clone();
            let number = archive.agree_inserted(&mut bytes, length, right, edge(3, 1));
            assert_eq!(number == -4, length > whole.len(), "{length}");
            let mut zeros = vec![0; whole.len()];
            let receipt = receipt(length, 0);
            let number = archive.agree_inserted(&mut zeros, length, receipt, edge(0, 0));
            assert_eq!(number == -4, length > whole.len(), "{length}");
        }
    }
}

#[test]
fn drawn_charts() {
    let mut archive = Archive::new();
    let mut random = Random::new(SEED);
    let mut outcomes = [0usize; 19];
    for _ in 0..CHARTS {
        let chart = drawn(&mut random);
        let edge = any_edge(&mut random, &chart);
        let right = right_receipt(&chart, edge);
        let receipt = match random.below(6) {
            0 => random.pick(&wrong_receipts(right)),
            _ => right,
        };
        let room = random.pick(&[0, 1, 2, 2, 3, 4, 50, 50, 50]);
        let length = match random.below(12) {
            0 => random.below(chart.len() + room + 3),
            1 => chart.len() + room + 1,
            _ => chart.len(),
        };
        let mut bytes = buffer(&chart, room);
        let number = archive.agree_inserted(&mut bytes, length, receipt, edge);
        outcomes[(-number).max(0) as usize] += 1;
        if let Ok(longer) = usize::try_from(number) {
            assert!(archive.admit(&bytes[..longer]) > 0);
            assert_eq!(bytes[longer..], vec![FILL; room - 2]);
        }
    }
    let mut rows = (0..=10).chain([17, 18]);
    assert!(rows.all(|row| outcomes[row] > 25), "{outcomes:?}");
}

/// On any chart, numbers that fit no byte give what the numbers of no node give that do.
#[test]
fn drawn_numbers_over_a_byte() {
    let mut archive = Archive::new();
    let mut random = Random::new(SEED + 3);
    for _ in 0..CHARTS / 4 {
        let chart = drawn(&mut random);
        let wide = cut_to(any_edge(&mut random, &chart));
        let numbers = random.pick(&wide);
        let right = right_receipt(&chart, edge(255, 255));
        let mut bytes = buffer(&chart, 2);
        let number = archive.agree_inserted(&mut bytes, chart.len(), right, numbers);
        let other = archive.insert_edge(&mut bytes, chart.len(), right, edge(255, 255));
        assert_eq!(number, other, "{numbers:?}");
        assert_eq!(bytes, buffer(&chart, 2));
    }
}

/// The longest chart without one of its edges, for every edge that it can spare: put back, it is the longest
/// chart again, at the edge limit. With all its edges it takes no other, nor one that it has.
#[test]
fn full_edge_tables() {
    let mut archive = Archive::new();
    let chart = longest();
    let decoded = decode_checked(&chart).expect("the longest chart");
    assert_eq!(decoded.edges.len(), 1_024);
    let mut spared = 0;
    for (place, &edge) in decoded.edges.iter().enumerate() {
        let mut fewer = ChartBuilder::from_chart(&decoded);
        fewer.edges.remove(place);
        let fewer = fewer.bytes();
        if archive.admit(&fewer) < 0 {
            continue;
        }
        let mut bytes = buffer(&fewer, 2);
        let number = archive.agree_inserted(&mut bytes, 3_118, receipt(3_118, place), edge);
        assert_eq!(number, 3_120);
        assert_eq!(bytes, chart);
        spared += 1;
        let mut bytes = buffer(&chart, place % 4);
        let number = archive.agree_inserted(&mut bytes, 3_120, receipt(3_120, place), edge);
        assert_eq!(number, -3);
    }
    assert!(spared > 800, "{spared}");
    let mut random = Random::new(SEED + 1);
    for _ in 0..300 {
        let edge = any_edge(&mut random, &chart);
        let right = right_receipt(&chart, edge);
        let mut bytes = buffer(&chart, random.below(4));
        assert_eq!(archive.agree_inserted(&mut bytes, 3_120, right, edge), -3);
    }
}

/// Edge after edge into one buffer, to its last byte or until none fits; then each receipt of before is stale.
#[test]
fn many_edges_in_a_row() {
    let mut archive = Archive::new();
    let mut random = Random::new(SEED + 2);
    let mut full = 0;
    for turn in 0..60 {
        let chart = match turn % 6 {
            0 => charts::large(&mut random),
            _ => charts::small(&mut random),
        };
        let mut bytes = buffer(&chart, random.below(80));
        let mut length = chart.len();
        for _ in 0..60 {
            let edge = any_edge(&mut random, &bytes[..length]);
            let right = right_receipt(&bytes[..length], edge);
            let number = archive.agree_inserted(&mut bytes, length, right, edge);
            full += usize::from(number == -18);
            let Ok(longer) = usize::try_from(number) else {
                continue;
            };
            assert_eq!(longer, length + 2);
            length = longer;
            assert_eq!(archive.agree_inserted(&mut bytes, length, right, edge), -9);
        }
        archive.agree(&bytes[..length]);
    }
    assert!(full > 50, "{full}");
}

/// The edge is not in the receipt: that of another edge with the same place serves, and no other.
#[test]
fn receipts_of_other_edges() {
    let mut archive = Archive::new();
    let chart = figure_2b();
    for (from, to) in [(1, 4), (1, 5), (2, 2), (3, 3)] {
        let own = right_receipt(&chart, edge(from, to));
        for (from, to) in [(1, 4), (1, 5), (1, 6), (2, 2), (2, 3), (3, 3), (0, 12)] {
            let other = right_receipt(&chart, edge(from, to));
            let mut bytes = buffer(&chart, 2);
            let number = archive.agree_inserted(&mut bytes, chart.len(), other, edge(from, to));
            assert_eq!(number, chart.len() as i64 + 2, "{from} {to}");
            let mut bytes = buffer(&chart, 2);
            let number = archive.agree_inserted(&mut bytes, chart.len(), own, edge(from, to));
            assert_eq!(number == -17, own != other, "{from} {to}");
        }
    }
}
