//! Charts that a team goes round as often as it likes, for long traces (02, Note 11): two of the charts that
//! are asked again and again, and two with as many sections, and as many ordereds, as there can be.

use super::{returning, typical, NONE};
use reference::builder::ChartBuilder;
use reference::chart::{Construct, Edge};

/// Sections of one construct, or ordereds of one do: all constructs but one.
const INNER: usize = 47;

/// The charts, with their names. The node before Finish is a barrier that leads to Finish and to where Start
/// leads.
pub fn rings() -> [(&'static str, Vec<u8>); 4] {
    [
        ("typical, 62 barriers", ring(typical(60))),
        ("48 constructs that return", ring(returning())),
        ("47 sections", ring(sections())),
        ("47 ordereds in a do", ring(ordereds())),
    ]
}

/// The last node of a chart, a barrier, leads to where its first does; Finish comes after it.
fn ring(mut chart: ChartBuilder) -> Vec<u8> {
    let last = chart.nodes.len() - 1;
    let firsts: Vec<Edge> = chart
        .edges
        .iter()
        .copied()
        .filter(|x| x.from == 0)
        .collect();
    for edge in firsts {
        chart.edge(last, edge.to.into());
    }
    let finish = chart.barrier();
    chart.edge(last, finish);
    chart.bytes()
}

/// A sections construct that returns.
fn sections() -> ChartBuilder {
    let mut chart = ChartBuilder::new();
    let outer = chart.construct(Construct::SECTIONS, NONE, 0);
    chart.barrier();
    let begin = chart.begin(outer);
    let mut ends = Vec::new();
    for _ in 0..INNER {
        let section = chart.construct(Construct::SECTION, outer, 0);
        let own = (chart.begin(section), chart.end(section));
        chart.edge(begin, own.0);
        chart.edge(own.0, own.1);
        ends.push(own.1);
    }
    let end = chart.end(outer);
    ends.iter().for_each(|&inner| chart.edge(inner, end));
    enclose(chart, begin, end)
}

/// A do that returns, with ordereds around nothing in a row.
fn ordereds() -> ChartBuilder {
    let mut chart = ChartBuilder::new();
    let outer = chart.construct(Construct::DO, NONE, 0);
    chart.barrier();
    let begin = chart.begin(outer);
    for _ in 0..INNER {
        let ordered = chart.construct(Construct::ORDERED, outer, 0);
        chart.begin(ordered);
        chart.end(ordered);
    }
    let end = chart.end(outer);
    (begin..end).for_each(|node| chart.edge(node, node + 1));
    enclose(chart, begin, end)
}

/// The edges of the one outermost construct, and the barrier after it.
fn enclose(mut chart: ChartBuilder, begin: usize, end: usize) -> ChartBuilder {
    let barrier = chart.barrier();
    chart.edge(0, begin);
    chart.edge(end, begin);
    chart.edge(end, barrier);
    chart
}
