//! Taking an edge out (02, Note 7): number and every byte of the buffer, on charts of all kinds and both
//! editions, valid and damaged; edges that can be spared, bridges, the only edge and edges that are not there;
//! and there and back.

use charts::random::Random;
use compare::edits::*;
use compare::Archive;
use reference::chart::{Construct, Edge};
use reference::known::*;
use reference::refusals::decode_checked;

const CHARTS: usize = 6_000;
const SEED: u64 = 2_026_111_508;

fn edge(from: u8, to: u8) -> Edge {
    Edge { from, to }
}

fn edges(chart: &[u8]) -> Vec<Edge> {
    decode_checked(chart).expect("an admitted chart").edges
}

#[test]
fn chart_s_single() {
    let mut archive = Archive::new();
    let chart = chart_s(Construct::SINGLE, &[]);
    for (from, to, row) in [
        (4, 0, 19),
        (1, 3, 19),
        (255, 255, 19),
        (0, 1, 10),
        (1, 2, 10),
        (2, 3, 10),
        (3, 4, 10),
    ] {
        let mut bytes = buffer(&chart, 4);
        let number = archive.agree_removed(&mut bytes, 48, edge(from, to));
        assert_eq!(number, -row, "{from} {to}");
        assert_eq!(bytes, buffer(&chart, 4));
    }
    let mut bytes = buffer(&chart_s(Construct::SINGLE, &[(1, 3)]), 4);
    assert_eq!(archive.agree_removed(&mut bytes, 50, edge(1, 3)), 48);
    assert_eq!(bytes[..48], chart);
    assert_eq!(bytes[48..], [0, 0, FILL, FILL, FILL, FILL]);
    let two = row(2, 2);
    for (from, to, row) in [(0, 1, 3), (1, 0, 19), (0, 0, 19)] {
        let mut bytes = buffer(&two, 0);
        let number = archive.agree_removed(&mut bytes, two.len(), edge(from, to));
        assert_eq!(number, -row, "{from} {to}");
    }
}

/// Each edge between two numbers of nodes, and some beyond, with and without bytes past the chart.
#[test]
fn every_edge_of_known_charts() {
    let mut archive = Archive::new();
    let (mut spared, mut bridges) = (0, 0);
    for chart in known() {
        let nodes = (archive.admit(&chart) % 256) as u8;
        let numbers = || (0..=nodes).chain([255]);
        for edge in numbers().flat_map(|from| numbers().map(move |to| edge(from, to))) {
            for room in [0, 1, 7] {
                let mut bytes = buffer(&chart, room);
                let number = archive.agree_removed(&mut bytes, chart.len(), edge);
                spared += usize::from(number > 0);
                bridges += usize::from(number == -10);
            }
        }
    }
    assert!(spared > 10 && bridges > 200, "{spared} {bridges}");
}

/// Numbers that fit no byte, though cut to bytes they were an edge that can be spared: 19, in its place, and
/// nothing is written.
#[test]
fn numbers_over_a_byte() {
    let mut archive = Archive::new();
    for chart in known().into_iter().chain([longest(), row(2, 2)]) {
        for numbers in edges(&chart).into_iter().take(20).flat_map(cut_to) {
            for (length, row) in [
                (chart.len(), 19),
                (chart.len() + 3, 4),
                (chart.len() + 1, 2),
                (15, 1),
            ] {
                let mut bytes = buffer(&chart, 2);
                let number = archive.agree_removed(&mut bytes, length, numbers);
                assert_eq!(number, -row, "{numbers:?} {length}");
                assert_eq!(bytes, buffer(&chart, 2));
            }
        }
    }
}

/// Every length, from nothing to beyond the buffer: 4 there, whatever the bytes are.
#[test]
fn every_length() {
    let mut archive = Archive::new();
    let chart = chart_y([1, 2], &[(3, 1)]);
    let beyond = [100_000, 1 << 32, 1 << 63, usize::MAX - 1, usize::MAX];
    for room in [0, 2, 20] {
        let whole = buffer(&chart, room);
        for length in (0..whole.len() + 4).chain(beyond) {
            let mut bytes = whole.clone();
            let number = archive.agree_removed(&mut bytes, length, edge(3, 1));
            assert_eq!(number == -4, length > whole.len(), "{length}");
            let mut zeros = vec![0; whole.len()];
            let number = archive.agree_removed(&mut zeros, length, edge(0, 0));
            assert_eq!(number == -4, length > whole.len(), "{length}");
        }
    }
}

#[test]
fn drawn_charts() {
    let mut archive = Archive::new();
    let mut random = Random::new(SEED);
    let mut outcomes = [0usize; 20];
    for _ in 0..CHARTS {
        let chart = drawn(&mut random);
        let edge = match decode_checked(&chart) {
            Ok(chart) if random.percent(80) => random.pick(&chart.edges),
            _ => any_edge(&mut random, &chart),
        };
        let room = random.pick(&[0, 0, 1, 2, 30]);
        let length = match random.below(12) {
            0 => random.below(chart.len() + room + 3),
            1 => chart.len() + room + 1,
            _ => chart.len(),
        };
        let mut bytes = buffer(&chart, room);
        let number = archive.agree_removed(&mut bytes, length, edge);
        outcomes[(-number).max(0) as usize] += 1;
        if let Ok(shorter) = usize::try_from(number) {
            assert!(archive.admit(&bytes[..shorter]) > 0);
            assert_eq!(bytes[shorter..length], [0, 0]);
            assert_eq!(bytes[length..], vec![FILL; room]);
        }
    }
    let mut rows = (0..=10).chain([19]);
    assert!(rows.all(|row| outcomes[row] > 25), "{outcomes:?}");
}

/// Putting in and then taking out the same edge brings back every byte of the chart, and leaves 0 in the two
/// past it; taking out and then putting in, every byte of the buffer.
#[test]
fn there_and_back() {
    let mut archive = Archive::new();
    let mut random = Random::new(SEED + 1);
    let mut trips = [0usize; 2];
    for _ in 0..CHARTS {
        let chart = drawn(&mut random);
        let edge = any_edge(&mut random, &chart);
        let whole = buffer(&chart, 2 + random.below(5));
        let mut bytes = whole.clone();
        let receipt = right_receipt(&chart, edge);
        if let Ok(longer) =
            usize::try_from(archive.insert_edge(&mut bytes, chart.len(), receipt, edge))
        {
            let shorter = archive.agree_removed(&mut bytes, longer, edge);
            assert_eq!(shorter, chart.len() as i64);
            assert_eq!(bytes[..chart.len()], chart);
            assert_eq!(bytes[chart.len()..longer], [0, 0]);
            assert_eq!(bytes[longer..], whole[longer..]);
            trips[0] += 1;
        }
        let mut bytes = whole.clone();
        if let Ok(shorter) = usize::try_from(archive.remove_edge(&mut bytes, chart.len(), edge)) {
            let receipt = right_receipt(&bytes[..shorter], edge);
            let longer = archive.agree_inserted(&mut bytes, shorter, receipt, edge);
            assert_eq!(longer, chart.len() as i64);
            assert_eq!(bytes, whole);
            trips[1] += 1;
        }
    }
    assert!(trips.iter().all(|&times| times > 100), "{trips:?}");
}

/// Every edge of the longest chart, at the edge limit.
#[test]
fn a_full_edge_table() {
    let mut archive = Archive::new();
    let chart = longest();
    let mut spared = 0;
    for edge in edges(&chart) {
        let mut bytes = buffer(&chart, 1);
        let number = archive.agree_removed(&mut bytes, chart.len(), edge);
        assert!([3_118, -10].contains(&number), "{number}");
        spared += usize::from(number > 0);
    }
    assert!(spared > 800, "{spared}");
}

/// Edge after edge out of one buffer, until every edge that is left is a bridge; then the chart is as it was
/// when all are put in again, in another order.
#[test]
fn down_to_the_bridges() {
    let mut archive = Archive::new();
    let mut random = Random::new(SEED + 2);
    for turn in 0..80 {
        let chart = match turn % 8 {
            0 => charts::large(&mut random),
            _ => charts::small(&mut random),
        };
        let mut bytes = buffer(&chart, 3);
        let mut length = chart.len();
        let mut order = edges(&chart);
        random.shuffle(&mut order);
        let mut out = Vec::new();
        for edge in order {
            if let Ok(shorter) = usize::try_from(archive.agree_removed(&mut bytes, length, edge)) {
                length = shorter;
                out.push(edge);
            }
        }
        for edge in edges(&bytes[..length]) {
            let number = archive.agree_removed(&mut bytes, length, edge);
            assert!([-3, -10].contains(&number), "{number}");
        }
        assert!(bytes[length..chart.len()].iter().all(|&byte| byte == 0));
        random.shuffle(&mut out);
        for edge in out {
            let receipt = right_receipt(&bytes[..length], edge);
            let longer = archive.agree_inserted(&mut bytes, length, receipt, edge);
            length = usize::try_from(longer).expect("an edge that was there");
        }
        assert_eq!(bytes, buffer(&chart, 3));
    }
}
