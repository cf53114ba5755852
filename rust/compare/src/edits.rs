//! The calls that change a chart in its buffer, and charts and edges to try them with.

use crate::{number, Archive};
use charts::random::Random;
use reference::builder::ChartBuilder;
use reference::chart::{Chart, Edge, Node};
use reference::edits::{self, Numbers, Receipt};
use reference::known::*;
use reference::refusals::decode_checked;

/// What a buffer holds past its chart.
pub const FILL: u8 = 0xA5;

impl Archive {
    /// Puts an edge into the chart in a buffer, which afterwards holds what the call left there.
    pub fn insert_edge(
        &mut self,
        buffer: &mut [u8],
        length: usize,
        receipt: Receipt,
        edge: impl Into<Numbers>,
    ) -> i64 {
        let receipt = bohrali::Receipt {
            length: receipt.length,
            place: receipt.place,
        };
        let Numbers { from, to } = edge.into();
        self.out.with_mut(buffer, |lent| {
            let inserted = bohrali::insert_edge(lent, length, receipt, from, to);
            number(inserted, |length| length)
        })
    }

    /// The same: number and every byte of the buffer agree with the second implementation.
    pub fn agree_inserted(
        &mut self,
        buffer: &mut [u8],
        length: usize,
        receipt: Receipt,
        edge: impl Into<Numbers>,
    ) -> i64 {
        let edge = edge.into();
        let before = buffer.to_vec();
        let mut theirs = before.clone();
        let number = self.insert_edge(buffer, length, receipt, edge);
        let expected = edits::insert(&mut theirs, length, receipt, edge);
        let asked = || format!("{edge:?}, {receipt:?}, length {length}, {before:02X?}");
        assert_eq!(number, expected, "{}", asked());
        assert_eq!(buffer, theirs, "{}", asked());
        number
    }

    /// Takes an edge out of the chart in a buffer, in the same way.
    pub fn remove_edge(
        &mut self,
        buffer: &mut [u8],
        length: usize,
        edge: impl Into<Numbers>,
    ) -> i64 {
        let Numbers { from, to } = edge.into();
        self.out.with_mut(buffer, |lent| {
            let removed = bohrali::remove_edge(lent, length, from, to);
            number(removed, |length| length)
        })
    }

    /// The same: number and every byte of the buffer agree with the second implementation.
    pub fn agree_removed(
        &mut self,
        buffer: &mut [u8],
        length: usize,
        edge: impl Into<Numbers>,
    ) -> i64 {
        let edge = edge.into();
        let before = buffer.to_vec();
        let mut theirs = before.clone();
        let number = self.remove_edge(buffer, length, edge);
        let expected = edits::remove(&mut theirs, length, edge);
        let asked = || format!("{edge:?}, length {length}, {before:02X?}");
        assert_eq!(number, expected, "{}", asked());
        assert_eq!(buffer, theirs, "{}", asked());
        number
    }
}

/// A chart in a buffer that has so many bytes more.
pub fn buffer(chart: &[u8], room: usize) -> Vec<u8> {
    [chart, &vec![FILL; room]].concat()
}

/// Charts with every kind of construct, of both editions, with inner regions and with one edge alone.
pub fn known() -> Vec<Vec<u8>> {
    let kinds = (1..=4).map(|kind| chart_s(kind, &[]));
    let around = (1..=4).map(|kind| chart_t(kind, &[(7, 1)]));
    let others = [
        row(2, 2),
        chart_k(),
        chart_d(&[]),
        chart_x(&[]),
        chart_y([1, 2], &[]),
        chart_z(&[]),
        chart_w(),
        chart_v(),
        chart_u(),
        figure_2b(),
    ];
    kinds.chain(others).chain(around).collect()
}

/// A drawn chart, most of them admitted, with tags where it has nodes.
pub fn drawn(random: &mut Random) -> Vec<u8> {
    let mut chart = match random.below(10) {
        0..3 => charts::draw(random).1,
        3 => charts::large(random),
        _ => charts::small(random),
    };
    let nodes = decode_checked(&chart).map_or(0, |chart| chart.nodes.len());
    for node in chart.chunks_mut(Node::BYTES).take(nodes) {
        node[2..].fill(random.byte());
    }
    chart
}

/// An edge to put into a chart: often one that stays in its scope, now and then one that is there already
/// or that names no node.
pub fn any_edge(random: &mut Random, chart: &[u8]) -> Edge {
    let Ok(chart) = decode_checked(chart) else {
        return anywhere(random, 256);
    };
    match random.below(10) {
        0 => random.pick(&chart.edges),
        1 => anywhere(random, 256),
        2 => anywhere(random, chart.nodes.len() + 1),
        _ => fitting(random, &chart),
    }
}

fn anywhere(random: &mut Random, bound: usize) -> Edge {
    let [from, to] = [0; 2].map(|_| random.below(bound) as u8);
    Edge { from, to }
}

/// Pairs of numbers that fit no byte and, cut to bytes, are this edge; and the largest there are.
pub fn cut_to(edge: Edge) -> Vec<Numbers> {
    let Numbers { from, to } = edge.into();
    let over = [256, 512, 1 << 16, 1 << 32, usize::MAX - 255];
    let largest = [
        (usize::MAX, to),
        (from, usize::MAX),
        (usize::MAX, usize::MAX),
    ];
    let pairs = over.into_iter().flat_map(|over| {
        [
            (from + over, to),
            (from, to + over),
            (from + over, to + over),
        ]
    });
    let numbers = pairs.chain(largest);
    numbers.map(|(from, to)| Numbers { from, to }).collect()
}

/// An edge whose two sides are equal, in all likelihood.
fn fitting(random: &mut Random, chart: &Chart) -> Edge {
    let mut edge = anywhere(random, chart.nodes.len());
    for _ in 0..200 {
        let (from, to) = (edge.from.into(), edge.to.into());
        let known = chart.edges.contains(&edge);
        if chart.leaving_scope(from) == chart.arriving_scope(to) && !known {
            break;
        }
        edge = anywhere(random, chart.nodes.len());
    }
    edge
}

/// An admitted chart without one of its edges, and that edge; where it can spare none, the chart as it is and
/// an edge from Start to Finish, which any chart may have.
pub fn without_spare_edge(chart: &[u8]) -> (Vec<u8>, Edge) {
    let whole = decode_checked(chart).expect("an admitted chart");
    let without = |place: usize| {
        let mut fewer = ChartBuilder::from_chart(&whole);
        let edge = fewer.edges.remove(place);
        (fewer.bytes(), edge)
    };
    let mut fewer = (0..whole.edges.len()).map(without);
    let spared = fewer.find(|(chart, _)| decode_checked(chart).is_ok());
    let through = Edge {
        from: 0,
        to: (whole.nodes.len() - 1) as u8,
    };
    spared.unwrap_or((chart.to_vec(), through))
}

/// What asking would give, were the longer chart admitted: right for a chart that is, and some numbers for
/// one that is refused.
pub fn right_receipt(chart: &[u8], edge: Edge) -> Receipt {
    let edges = decode_checked(chart).map_or(Vec::new(), |chart| chart.edges);
    Receipt {
        length: chart.len(),
        place: edges.iter().filter(|&&x| x < edge).count(),
    }
}

/// Receipts that differ from one: by little, in a high byte alone, and by a lot.
pub fn wrong_receipts(right: Receipt) -> Vec<Receipt> {
    let changes: [fn(usize) -> usize; 8] = [
        |x| x.wrapping_sub(2),
        |x| x.wrapping_sub(1),
        |x| x + 1,
        |x| x + 2,
        |x| x + 256,
        |x| x + 65_536,
        |x| x + (1 << 32),
        |_| usize::MAX,
    ];
    let Receipt { length, place } = right;
    let lengths = changes.map(|change| Receipt {
        length: change(length),
        place,
    });
    let places = changes.map(|change| Receipt {
        length,
        place: change(place),
    });
    lengths.into_iter().chain(places).collect()
}
