//! Damaged charts: a valid one changed so that a given row of the refusal table is likely to
//! apply, or with some bytes changed at random; and noise.

use crate::random::Random;
use crate::regions::{crowded, parallels, same_name, wrong_barrier, wrong_parallel};
use reference::builder::ChartBuilder;
use reference::chart::{Chart, Construct, Edge, Node, Trailer};
use reference::masked;

/// The rows of the table that can be aimed at.
pub const ROWS: std::ops::RangeInclusive<u8> = 1..=10;

/// A valid chart changed so that row `row` is likely to apply, and no row before it.
pub fn aimed_at(random: &mut Random, valid: &ChartBuilder, row: u8) -> Vec<u8> {
    let mut chart = valid.clone();
    match row {
        1 => truncated(random, chart.bytes()),
        2 => with_field(random, chart.bytes(), &[0, 7], &[0, 3, 257, 258, 0x4F43]),
        3 => outside_limits(random, chart.bytes()),
        4 if random.percent(20) => other_edition(chart.bytes()),
        4 => wrong_distance(random, chart.bytes()),
        5 => wrong_node(random, &mut chart),
        6 => wrong_construct(random, &mut chart),
        7 => wrong_begin_or_end(random, &mut chart),
        8 => wrong_barriers(random, &mut chart),
        9 => wrong_edge(random, &mut chart),
        _ => unreachable(random, &mut chart),
    }
}

/// A chart with one to four bytes changed.
pub fn scattered(random: &mut Random, mut bytes: Vec<u8>) -> Vec<u8> {
    for _ in 0..random.between(1, 4) {
        let at = random.below(bytes.len());
        bytes[at] = match random.below(4) {
            0 => random.byte(),
            1 => bytes[at].wrapping_add(1),
            2 => bytes[at].wrapping_sub(1),
            _ => bytes[at] ^ 1 << random.below(8),
        };
    }
    bytes
}

/// Random bytes, often behind a trailer that passes rows 1 to 4.
pub fn noise(random: &mut Random) -> Vec<u8> {
    if random.percent(50) {
        let length = random.between(0, 3200);
        return (0..length).map(|_| random.byte()).collect();
    }
    let mut chart = ChartBuilder::of_edition(random.between(1, 2) as u16);
    for _ in 0..random.between(2, 12) {
        chart.node(random.below(4) as u8, random.pick(&[0, 1, 255, 255]));
    }
    for _ in 0..random.between(1, 12) {
        chart.edge(random.below(12), random.below(12));
    }
    for _ in 0..random.between(0, 3) {
        chart.add(Construct {
            kind: random.between(1, 8) as u8,
            parent: random.pick(&[0, 255]),
            name: 0,
            filter: random.pick(&[0, 0, 1]),
        });
    }
    chart.bytes()
}

fn truncated(random: &mut Random, bytes: Vec<u8>) -> Vec<u8> {
    let kept = random.below(Trailer::BYTES);
    bytes[bytes.len() - kept..].to_vec()
}

/// Replaces one of some 16-bit fields of the trailer.
fn with_field(random: &mut Random, mut bytes: Vec<u8>, fields: &[usize], to: &[u16]) -> Vec<u8> {
    let at = bytes.len() - Trailer::BYTES + 2 * random.pick(fields);
    bytes[at..at + 2].copy_from_slice(&random.pick(to).to_le_bytes());
    bytes
}

fn outside_limits(random: &mut Random, bytes: Vec<u8>) -> Vec<u8> {
    match random.below(3) {
        0 => with_field(random, bytes, &[1], &[0, 1, 193, 256, 65_535]),
        1 => with_field(random, bytes, &[2], &[0, 1025, 65_535]),
        _ => with_field(random, bytes, &[3], &[49, 256, 65_535]),
    }
}

fn wrong_distance(random: &mut Random, mut bytes: Vec<u8>) -> Vec<u8> {
    match random.below(4) {
        0 => bytes.insert(0, random.byte()),
        1 => drop(bytes.remove(0)),
        2 => {
            let at = bytes.len() - Trailer::BYTES + 2 * random.between(4, 6);
            bytes[at] ^= 1 << random.below(8);
        }
        _ => {
            let at = bytes.len() - Trailer::BYTES + 2 * random.between(1, 3);
            bytes[at] ^= 1 << random.below(2);
        }
    }
    bytes
}

/// The number of the other edition: the construct records, where there are some, have the wrong length
/// then.
pub fn other_edition(mut bytes: Vec<u8>) -> Vec<u8> {
    let at = bytes.len() - Trailer::BYTES;
    bytes[at] ^= (Trailer::EDITION ^ masked::EDITION) as u8;
    bytes
}

fn wrong_node(random: &mut Random, chart: &mut ChartBuilder) -> Vec<u8> {
    if !parallels(chart).is_empty() && random.percent(50) {
        return wrong_barrier(random, chart);
    }
    let beyond = chart.constructs.len() + random.below(255 - chart.constructs.len());
    let count = chart.nodes.len();
    let node = &mut chart.nodes[random.below(count)];
    match (random.below(3), node.kind) {
        (0, _) => node.kind = random.between(4, 255) as u8,
        (1, Node::BEGIN | Node::END) => node.construct = Construct::NONE,
        _ => node.construct = beyond as u8,
    }
    chart.bytes()
}

fn wrong_construct(random: &mut Random, chart: &mut ChartBuilder) -> Vec<u8> {
    if !parallels(chart).is_empty() && random.percent(50) && chart.constructs.len() + 2 <= 48 {
        return match random.percent(50) {
            true => wrong_parallel(random, chart),
            false => same_name(random, chart, false),
        };
    }
    if random.percent(30) && chart.constructs.len() + 2 <= 48 && chart.nodes.len() < 192 {
        return wrong_in_sections(random, chart);
    }
    if chart.constructs.is_empty() {
        chart.construct(random.between(1, 7) as u8, Construct::NONE, 0);
    }
    if chart.edition == masked::EDITION && random.percent(30) {
        return wrong_filter(random, chart);
    }
    let number = random.below(chart.constructs.len());
    let own = &mut chart.constructs[number];
    match random.below(5) {
        0 => own.kind = random.pick(&[0, 16, 9, 255]),
        1 => own.parent = random.between(number, 254) as u8,
        2 if own.kind != Construct::CRITICAL => own.name = random.pick(&[1, 256]),
        3 => own.kind = random.between(1, 7) as u8,
        _ => own.parent = random.below(number + 1) as u8,
    }
    chart.bytes()
}

/// A filter on a construct that is not masked, which is added where there is none. It breaks row 7 at
/// most, which comes later.
pub fn wrong_filter(random: &mut Random, chart: &mut ChartBuilder) -> Vec<u8> {
    let is_other = |&number: &usize| chart.constructs[number].kind != Construct::MASTER;
    let others: Vec<usize> = (0..chart.constructs.len()).filter(is_other).collect();
    let number = match others[..] {
        [] => chart
            .construct(Construct::SINGLE, Construct::NONE, 0)
            .into(),
        _ => random.pick(&others),
    };
    chart.constructs[number].filter = random.pick(&[1, 255, 256, 65_535]);
    chart.bytes()
}

/// A plain node or a construct wrongly in a sections, or a section outside. What is added for it
/// breaks row 7 at most, which comes later.
pub fn wrong_in_sections(random: &mut Random, chart: &mut ChartBuilder) -> Vec<u8> {
    let is_sections = |x: &Construct| x.kind == Construct::SECTIONS;
    let sections = match chart.constructs.iter().position(is_sections) {
        Some(number) => number as u8,
        None => chart.construct(Construct::SECTIONS, Construct::NONE, 0),
    };
    match random.below(3) {
        0 => {
            chart.plain(sections);
        }
        1 => {
            let kind = random.pick(&[1, 2, 3, 3, 8, 4, 5, 6]);
            chart.construct(kind, sections, 0);
        }
        _ => {
            let is_other = |&number: &usize| !is_sections(&chart.constructs[number]);
            let others = (0..chart.constructs.len()).filter(is_other);
            let parents: Vec<u8> = others.map(|x| x as u8).chain([Construct::NONE]).collect();
            chart.construct(Construct::SECTION, random.pick(&parents), 0);
        }
    }
    chart.bytes()
}

fn wrong_begin_or_end(random: &mut Random, chart: &mut ChartBuilder) -> Vec<u8> {
    let is_port = |node: &&mut Node| matches!(node.kind, Node::BEGIN | Node::END);
    let constructs = chart.constructs.len();
    let port = random.below(2 * constructs + 1);
    match chart.nodes.iter_mut().filter(is_port).nth(port) {
        Some(node) => match random.below(3) {
            0 => node.kind = Node::PLAIN,
            1 => node.kind ^= Node::BEGIN ^ Node::END,
            _ => node.construct = random.below(constructs) as u8,
        },
        None => drop(chart.construct(Construct::SINGLE, Construct::NONE, 0)),
    }
    chart.bytes()
}

fn wrong_barriers(random: &mut Random, chart: &mut ChartBuilder) -> Vec<u8> {
    if let Some(bytes) = crowded(random, chart, Chart::MOST_BARRIERS + 1) {
        if random.percent(50) {
            return bytes;
        }
    }
    let last = chart.nodes.len() - 1;
    let is_outer = |x: &&Node| x.kind == Node::BARRIER && x.construct == Construct::NONE;
    let barriers = chart.nodes.iter().filter(is_outer);
    let missing = 65usize.saturating_sub(barriers.count());
    if random.percent(40) && chart.nodes.len() + missing <= 192 {
        for _ in 0..missing {
            chart.barrier();
        }
    } else {
        chart.nodes[random.pick(&[0, last])].kind = Node::PLAIN;
    }
    chart.bytes()
}

fn wrong_edge(random: &mut Random, chart: &mut ChartBuilder) -> Vec<u8> {
    let nodes = chart.nodes.len();
    let count = chart.edges.len();
    let joining = between_sections(random, chart);
    let edge = &mut chart.edges[random.below(count)];
    if let (Some(joining), true) = (joining, random.percent(50)) {
        *edge = joining;
        return chart.bytes();
    }
    match random.below(6) {
        0 => edge.from = random.between(nodes, 255) as u8,
        1 => edge.to = random.between(nodes, 255) as u8,
        2 => edge.to = 0,
        3 => edge.from = (nodes - 1) as u8,
        4 => edge.to = random.below(nodes) as u8,
        _ => return disordered(random, chart),
    }
    chart.bytes()
}

/// An edge from a section's end to a section's begin, its own or another's, if the chart has one.
pub fn between_sections(random: &mut Random, chart: &ChartBuilder) -> Option<Edge> {
    let framing = |kind: u8| -> Vec<u8> {
        let frames = |&x: &u8| {
            let node = chart.nodes[usize::from(x)];
            let named = chart.constructs.get(usize::from(node.construct));
            node.kind == kind && named.is_some_and(|x| x.kind == Construct::SECTION)
        };
        (0..chart.nodes.len() as u8).filter(frames).collect()
    };
    let (ends, begins) = (framing(Node::END), framing(Node::BEGIN));
    (!ends.is_empty()).then(|| Edge {
        from: random.pick(&ends),
        to: random.pick(&begins),
    })
}

/// The chart with two edges exchanged or one written over its neighbour.
fn disordered(random: &mut Random, chart: &mut ChartBuilder) -> Vec<u8> {
    chart.edges.sort_unstable();
    chart.edges.dedup();
    let last = chart.edges.len() - 1;
    let (one, other) = (random.below(last + 1), random.below(last + 1));
    if random.percent(50) {
        chart.edges.swap(one, other);
    } else if last > 0 {
        chart.edges[one.max(1)] = chart.edges[one.max(1) - 1];
    }
    chart.bytes_unsorted()
}

fn unreachable(random: &mut Random, chart: &mut ChartBuilder) -> Vec<u8> {
    let node = random.below(chart.nodes.len()) as u8;
    match random.below(4) {
        0 => chart.edges.retain(|edge| edge.to != node),
        1 => chart.edges.retain(|edge| edge.from != node),
        2 if chart.nodes.len() < 192 => drop(chart.barrier()),
        _ => {
            let at = random.below(chart.edges.len());
            let Edge { from, to } = chart.edges[at];
            chart.edges.retain(|edge| *edge != Edge { from, to });
        }
    }
    chart.bytes()
}
