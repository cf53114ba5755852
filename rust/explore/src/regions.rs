//! A chart as its rules and its team read it for a region (02, Note 12); both the same way, but for a
//! planted fault.

use crate::fault::Fault;
use reference::chart::{Chart, Construct, Edge, Node};

/// What one region of a chart is compared over. Nodes have the same numbers in both.
pub struct Readings {
    pub region: u8,
    /// As the pair rules read it.
    pub ruled: Chart,
    /// As the team runs over it.
    pub run: Chart,
}

impl Readings {
    pub fn of(chart: &Chart, region: u8, fault: Option<Fault>) -> Readings {
        let read = chart.read_for(region).chart;
        let (ruled, run) = match fault {
            Some(Fault::DeeperConstructsCounted) => (joined(chart, region), read),
            Some(Fault::InnerBarrierKept) => (with_barriers(chart, region), read),
            Some(Fault::EndToBeginKept) => {
                let around = coming_back(chart, region, read);
                (around.clone(), around)
            }
            _ => (read.clone(), read),
        };
        Readings { region, ruled, run }
    }
}

/// Whether a construct is a parallel below a region.
fn is_deeper(chart: &Chart, construct: u8, region: u8) -> bool {
    let own = usize::from(construct);
    let is_parallel = |x: &Construct| x.kind == Construct::PARALLEL;
    let around = chart.outward(region);
    chart.constructs.get(own).is_some_and(is_parallel) && !around.contains(&own)
}

/// The chart read as if deeper parallels were criticals, which give no never, and their barriers plain
/// nodes: what is in them counts.
fn joined(chart: &Chart, region: u8) -> Chart {
    let mut changed = chart.clone();
    for node in &mut changed.nodes {
        if node.kind == Node::BARRIER && is_deeper(chart, node.construct, region) {
            node.kind = Node::PLAIN;
        }
    }
    for (number, own) in changed.constructs.iter_mut().enumerate() {
        if is_deeper(chart, number as u8, region) {
            own.kind = Construct::CRITICAL;
        }
    }
    changed.read_for(region).chart
}

/// The chart read with the barriers of deeper regions as barriers.
fn with_barriers(chart: &Chart, region: u8) -> Chart {
    let read = chart.read_for(region);
    let mut changed = read.chart;
    for (node, place) in chart.nodes.iter().zip(read.place) {
        let deeper = node.kind == Node::BARRIER && is_deeper(chart, node.construct, region);
        if let (Some(place), true) = (place, deeper) {
            changed.nodes[place] = Node {
                kind: Node::BARRIER,
                construct: Construct::NONE,
            };
        }
    }
    changed
}

/// The chart as read for a region, with the edge from the region's end to its begin, if there is one.
fn coming_back(chart: &Chart, region: u8, read: Chart) -> Chart {
    let mut changed = read;
    let joins = |edge: &Edge| {
        let frames = |node: u8, kind: u8| {
            let node = chart.nodes[usize::from(node)];
            node.kind == kind && node.construct == region
        };
        frames(edge.from, Node::END) && frames(edge.to, Node::BEGIN)
    };
    if chart.edges.iter().any(joins) {
        changed.edges.push(Edge {
            from: changed.finish as u8,
            to: changed.start as u8,
        });
    }
    changed
}
