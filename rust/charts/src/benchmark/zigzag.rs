//! The worst chart for sweeps, which carry marks along rising edges and then along falling ones: a path
//! through all nodes on which the two alternate, so that a sweep brings a mark one edge on.

use super::{EDGES, NODES, NONE};
use crate::random::Random;
use reference::builder::ChartBuilder;
use reference::chart::{Construct, Edge};

/// Two barriers are at the end, the second of them Finish.
const BARRIER: usize = NODES - 2;
const PATH: usize = BARRIER - 1;

/// The path begins with a single, so that its return takes as many sweeps; from its end leads both to
/// Finish and, by a barrier, to its begin. All other edges lead back on it: none is a short cut.
pub fn chart() -> Vec<u8> {
    let mut chart = nodes();
    chart.edge(0, on_path(0));
    chart.edge(BARRIER, on_path(0));
    for place in 1..PATH {
        chart.edge(on_path(place - 1), on_path(place));
    }
    chart.edge(on_path(PATH - 1), BARRIER);
    chart.edge(on_path(PATH - 1), NODES - 1);
    let mut random = Random::new(6);
    while chart.edges.len() < EDGES {
        let from = random.between(3, PATH - 1);
        // into the single only by its begin
        let to = match random.below(from - 1) {
            0 => 0,
            place => place + 1,
        };
        let (from, to) = (on_path(from), on_path(to));
        let edge = Edge {
            from: from as u8,
            to: to as u8,
        };
        if to != on_path(2) && !chart.edges.contains(&edge) {
            chart.edge(from, to);
        }
    }
    chart.bytes()
}

/// The node at a place of the path: from below and from above in turn.
fn on_path(place: usize) -> usize {
    match place % 2 {
        0 => 1 + place / 2,
        _ => PATH - place / 2,
    }
}

fn nodes() -> ChartBuilder {
    let mut chart = ChartBuilder::new();
    let single = chart.construct(Construct::SINGLE, NONE, 0);
    chart.barrier();
    for node in 1..=PATH {
        if node == on_path(0) {
            chart.begin(single);
        } else if node == on_path(2) {
            chart.end(single);
        } else {
            chart.plain(if node == on_path(1) { single } else { NONE });
        }
    }
    chart.barrier();
    chart.barrier();
    chart
}
