//! Charts with edges added (02, Note 8): the larger of two charts, and what its sheet may say against
//! that of the smaller.

use crate::random::Random;
use crate::valid::{valid, Shape, NEAR_FILTERS};
use reference::builder::ChartBuilder;
use reference::chart::Edge;
use reference::refusals::decode_checked;

/// What a sheet has where either node is a barrier or outside the region.
const BARRIER: u8 = 255;

/// A small chart with few edges, by turns of any kind, with parallels and with masked constructs: one that
/// leaves most edges to be added.
pub fn few_edges(random: &mut Random, turn: usize) -> ChartBuilder {
    let mut shape = match turn % 3 {
        0 => Shape::small(random),
        1 => Shape::nested(random),
        _ => Shape::masked(random, NEAR_FILTERS),
    };
    shape.further_edges = 0;
    shape.returning = 10;
    // often in a row, so that barriers part what edges may join
    shape.window = random.pick(&[1, 1, 10]);
    valid(random, &shape)
}

/// An admitted chart with up to so many edges more: of those drawn, the ones that leave it admitted.
pub fn with_more_edges(random: &mut Random, chart: &ChartBuilder, most: usize) -> ChartBuilder {
    let node = |random: &mut Random| random.below(chart.nodes.len()) as u8;
    let mut larger = chart.clone();
    for _ in 0..most {
        let (from, to) = (node(random), node(random));
        larger.edges.push(Edge { from, to });
        if decode_checked(&larger.bytes()).is_err() {
            larger.edges.pop();
        }
    }
    larger
}

/// Entry by entry: a never of the larger chart is one of the smaller, by the same rule or by rule 1 where
/// it was by rule 2; and barriers stay. Gives how many nevers the larger has lost and how many numbers
/// have changed.
pub fn assert_loosened(larger: &[u8], smaller: &[u8]) -> (usize, usize) {
    assert_eq!(larger.len(), smaller.len());
    let (mut lost, mut changed) = (0, 0);
    for (&larger, &smaller) in larger.iter().zip(smaller) {
        match (larger, smaller) {
            (0, BARRIER) => panic!("a barrier of the smaller chart has an answer in the larger"),
            (0, _) => lost += usize::from(smaller != 0),
            (2, 1) => changed += 1,
            _ => assert_eq!(larger, smaller),
        }
    }
    (lost, changed)
}
