//! The places where the nodes' edges begin in the sorted edge table (02, Note 3): "for each node, [..] the
//! number of edges that leave lower nodes".

use crate::chart::Chart;

/// The place of each node of an admitted chart, then that past the last node, where the table ends.
pub fn first_edges(chart: &Chart) -> Vec<usize> {
    let leaving_lower = |node: usize| {
        let edges = chart.edges.iter();
        edges.filter(|edge| usize::from(edge.from) < node).count()
    };
    (0..=chart.nodes.len()).map(leaving_lower).collect()
}
