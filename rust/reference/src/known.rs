//! The charts of 01's "Charts with known answers", one with sections, one of edition 2, some with regions
//! and two with locks that can be dropped, as bytes: for the tests here, for the exploration and for the
//! comparison with other implementations.

use crate::builder::ChartBuilder;
use crate::chart::Construct;
use crate::masked;

/// Chart K: five nodes, barriers 0, 2 and 4.
pub fn chart_k() -> Vec<u8> {
    let mut chart = ChartBuilder::new();
    chart.barrier();
    chart.plain(Construct::NONE);
    chart.barrier();
    chart.plain(Construct::NONE);
    chart.barrier();
    chart.row();
    chart.edge(3, 1);
    chart.bytes()
}

/// Chart S: a construct of one kind around one plain node, with edges added to the row.
pub fn chart_s(kind: u8, added: &[(usize, usize)]) -> Vec<u8> {
    let mut chart = one_construct(kind);
    chart.barrier();
    chart.row();
    added.iter().for_each(|&(from, to)| chart.edge(from, to));
    chart.bytes()
}

/// Chart S single "with node 4 made a barrier, Finish as 5, edges 3-4, 4-1, 4-5".
pub fn chart_s_through_barrier() -> Vec<u8> {
    let mut chart = one_construct(Construct::SINGLE);
    chart.barrier();
    chart.barrier();
    chart.row();
    chart.edge(4, 1);
    chart.bytes()
}

fn one_construct(kind: u8) -> ChartBuilder {
    let mut chart = ChartBuilder::new();
    let construct = chart.construct(kind, Construct::NONE, 0);
    chart.barrier();
    chart.begin(construct);
    chart.plain(construct);
    chart.end(construct);
    chart
}

/// Chart D: an ordered in a do, with edges added to the row.
pub fn chart_d(added: &[(usize, usize)]) -> Vec<u8> {
    let mut chart = ChartBuilder::new();
    let outer = chart.construct(Construct::DO, Construct::NONE, 0);
    let inner = chart.construct(Construct::ORDERED, outer, 0);
    chart.barrier();
    chart.begin(outer);
    chart.begin(inner);
    chart.plain(inner);
    chart.end(inner);
    chart.end(outer);
    chart.barrier();
    chart.row();
    added.iter().for_each(|&(from, to)| chart.edge(from, to));
    chart.bytes()
}

/// Chart X: a sections construct of two sections, the first around one plain node, with edges added.
pub fn chart_x(added: &[(usize, usize)]) -> Vec<u8> {
    let mut chart = ChartBuilder::new();
    let sections = chart.construct(Construct::SECTIONS, Construct::NONE, 0);
    let [first, second] = [0, 1].map(|_| chart.construct(Construct::SECTION, sections, 0));
    chart.barrier();
    chart.begin(sections);
    chart.begin(first);
    chart.plain(first);
    chart.end(first);
    chart.begin(second);
    chart.end(second);
    chart.end(sections);
    chart.barrier();
    let edges = [
        (0, 1),
        (1, 2),
        (1, 5),
        (2, 3),
        (3, 4),
        (4, 7),
        (5, 6),
        (6, 7),
        (7, 8),
    ];
    let all = edges.iter().chain(added);
    all.for_each(|&(from, to)| chart.edge(from, to));
    chart.bytes()
}

/// Chart Y, of edition 2: two masked constructs in a row, each around one plain node, with edges added.
pub fn chart_y(filters: [u16; 2], added: &[(usize, usize)]) -> Vec<u8> {
    let mut chart = ChartBuilder::of_edition(masked::EDITION);
    chart.barrier();
    for filter in filters {
        let masked = chart.masked(Construct::NONE, filter);
        chart.begin(masked);
        chart.plain(masked);
        chart.end(masked);
    }
    chart.barrier();
    chart.row();
    added.iter().for_each(|&(from, to)| chart.edge(from, to));
    chart.bytes()
}

/// Two masters in a row, each around one plain node, with a barrier between them and edges added.
pub fn masters_apart(added: &[(usize, usize)]) -> Vec<u8> {
    let mut chart = ChartBuilder::new();
    chart.barrier();
    for _ in 0..2 {
        let master = chart.construct(Construct::MASTER, Construct::NONE, 0);
        chart.begin(master);
        chart.plain(master);
        chart.end(master);
        chart.barrier();
    }
    chart.row();
    added.iter().for_each(|&(from, to)| chart.edge(from, to));
    chart.bytes()
}

/// Constructs (kind, name), each the only child of the one before, with a plain node in the innermost
/// one or none; edges in a row.
pub fn nested(constructs: &[(u8, u16)], filled: bool) -> ChartBuilder {
    let mut chart = ChartBuilder::new();
    chart.barrier();
    for (number, &(kind, name)) in constructs.iter().enumerate() {
        let parent = number.checked_sub(1);
        let parent = parent.map_or(Construct::NONE, |above| above as u8);
        let construct = chart.construct(kind, parent, name);
        chart.begin(construct);
    }
    if filled {
        chart.plain((constructs.len() - 1) as u8);
    }
    for construct in (0..constructs.len()).rev() {
        chart.end(construct as u8);
    }
    chart.barrier();
    chart.row();
    chart
}

/// Chains of constructs (kind, name) in a row, each construct around the next of its chain and the innermost
/// around one plain node; and these nodes.
pub fn in_a_row(chains: &[&[(u8, u16)]]) -> (Vec<u8>, Vec<u8>) {
    let mut chart = ChartBuilder::new();
    let mut plain = Vec::new();
    chart.barrier();
    for chain in chains {
        let mut open = vec![Construct::NONE];
        for &(kind, name) in *chain {
            let own = chart.construct(kind, open[open.len() - 1], name);
            chart.begin(own);
            open.push(own);
        }
        plain.push(chart.plain(open[open.len() - 1]) as u8);
        open[1..].iter().rev().for_each(|&own| {
            chart.end(own);
        });
    }
    chart.barrier();
    chart.row();
    (chart.bytes(), plain)
}

/// A parallel from node 1 on around what `fill` adds to it; edges in a row.
pub fn one_region(fill: impl Fn(&mut ChartBuilder, u8)) -> ChartBuilder {
    let mut chart = ChartBuilder::new();
    let region = chart.construct(Construct::PARALLEL, Construct::NONE, 0);
    chart.barrier();
    chart.begin(region);
    fill(&mut chart, region);
    chart.end(region);
    chart.barrier();
    chart.row();
    chart
}

/// Chart Z: a parallel, in it a single around one plain node and then a barrier; edges added.
pub fn chart_z(added: &[(usize, usize)]) -> Vec<u8> {
    let mut chart = one_region(|chart, region| {
        let single = chart.construct(Construct::SINGLE, region, 0);
        chart.begin(single);
        chart.plain(single);
        chart.end(single);
        chart.barrier_of(region);
    });
    added.iter().for_each(|&(from, to)| chart.edge(from, to));
    chart.bytes()
}

/// Chart W: a parallel with a barrier whose number is below those of its begin and end.
pub fn chart_w() -> Vec<u8> {
    let mut chart = ChartBuilder::new();
    let region = chart.construct(Construct::PARALLEL, Construct::NONE, 0);
    chart.barrier();
    chart.barrier_of(region);
    chart.begin(region);
    chart.end(region);
    chart.plain(region);
    chart.barrier();
    for (from, to) in [(0, 2), (1, 3), (2, 4), (3, 5), (4, 1)] {
        chart.edge(from, to);
    }
    chart.bytes()
}

/// Chart V: a parallel in a parallel, around one plain node.
pub fn chart_v() -> Vec<u8> {
    nested(&[(Construct::PARALLEL, 0); 2], true).bytes()
}

/// Chart T: a single in a parallel in a construct of one kind, around one plain node, with edges added.
pub fn chart_t(outer: u8, added: &[(usize, usize)]) -> Vec<u8> {
    let inner = [Construct::PARALLEL, Construct::SINGLE];
    let mut chart = nested(&[(outer, 0), (inner[0], 0), (inner[1], 0)], true);
    added.iter().for_each(|&(from, to)| chart.edge(from, to));
    chart.bytes()
}

/// Chart U: a single in a parallel, around one plain node, and an edge from the parallel's end to its
/// begin.
pub fn chart_u() -> Vec<u8> {
    let mut chart = nested(&[(Construct::PARALLEL, 0), (Construct::SINGLE, 0)], true);
    chart.edge(5, 1);
    chart.bytes()
}

/// Chart L: a single around a critical around one plain node, a barrier, and a critical of the same name
/// around another; edges in a row.
pub fn chart_l() -> Vec<u8> {
    let mut chart = ChartBuilder::new();
    chart.barrier();
    locked_single(&mut chart);
    chart.barrier();
    let critical = chart.construct(Construct::CRITICAL, Construct::NONE, LOCKED_NAME);
    chart.begin(critical);
    chart.plain(critical);
    chart.end(critical);
    chart.barrier();
    chart.row();
    chart.bytes()
}

/// Chart M: node 1 parts into two such singles, each with a barrier of its own behind it.
pub fn chart_m() -> Vec<u8> {
    let mut chart = ChartBuilder::new();
    chart.barrier();
    chart.plain(Construct::NONE);
    for _ in 0..2 {
        locked_single(&mut chart);
        chart.barrier();
    }
    chart.barrier();
    chart.row();
    chart.edges.retain(|edge| (edge.from, edge.to) != (7, 8));
    chart.edge(1, 8);
    chart.edge(7, 14);
    chart.bytes()
}

const LOCKED_NAME: u16 = 7;

/// A single around a critical around one plain node.
fn locked_single(chart: &mut ChartBuilder) {
    let single = chart.construct(Construct::SINGLE, Construct::NONE, 0);
    let critical = chart.construct(Construct::CRITICAL, single, LOCKED_NAME);
    chart.begin(single);
    chart.begin(critical);
    chart.plain(critical);
    chart.end(critical);
    chart.end(single);
}

/// The longest chart, of edition 2: 192 nodes, 1,024 edges and 48 masked constructs, of filters 0 to 47.
/// 860 edges lead from the first 27 nodes to nodes 1 to 32; from there on the row leads to Finish.
pub fn longest() -> Vec<u8> {
    let mut chart = ChartBuilder::of_edition(masked::EDITION);
    chart.barrier();
    for _ in 0..94 {
        chart.plain(Construct::NONE);
    }
    for filter in 0..48 {
        let masked = chart.masked(Construct::NONE, filter);
        chart.begin(masked);
        chart.end(masked);
    }
    chart.barrier();
    for edge in 0..860 {
        chart.edge(edge / 32, edge % 32 + 1);
    }
    for from in 27..191 {
        chart.edge(from, from + 1);
    }
    chart.bytes()
}

/// "The paper's Figure 2(b), node Ni as number i-1."
pub fn figure_2b() -> Vec<u8> {
    let mut chart = ChartBuilder::new();
    for name in 1..=13 {
        if [1, 3, 4, 10, 11, 13].contains(&name) {
            chart.barrier();
        } else {
            chart.plain(Construct::NONE);
        }
    }
    let named_edges = [
        (1, 2),
        (2, 3),
        (2, 4),
        (3, 5),
        (4, 6),
        (5, 7),
        (6, 7),
        (7, 8),
        (7, 9),
        (8, 10),
        (9, 11),
        (10, 12),
        (11, 12),
        (12, 13),
    ];
    for (from, to) in named_edges {
        chart.edge(from - 1, to - 1);
    }
    chart.bytes()
}

/// Nodes in a row, the first `barriers - 1` and the last of which are barriers.
pub fn row(nodes: usize, barriers: usize) -> Vec<u8> {
    let mut chart = ChartBuilder::new();
    for node in 1..=nodes {
        if node < barriers || node == nodes {
            chart.barrier();
        } else {
            chart.plain(Construct::NONE);
        }
    }
    chart.row();
    chart.bytes()
}
