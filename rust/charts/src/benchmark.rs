//! The charts of the benchmark, all fixed: six to be asked again and again, which are the costliest ones
//! for each part of the work and a typical one, 64 to be asked in turn, seven and 64 more with constructs of more
//! sorts, two for locks, and four for long traces; and code of the sizes that are asked for.

mod code;
mod rings;
mod sorts;
mod turns;
mod zigzag;

pub use rings::rings;
pub use sorts::{sorts, sorts_in_turn};
pub use turns::in_turn;

use crate::random::Random;
use code::Style;
use reference::builder::ChartBuilder;
use reference::chart::{Construct, Edge};
use std::collections::BTreeSet;

/// Code that is to have so many nodes has some more.
const MOST_OF_CODE: usize = 160;
const NODES: usize = 192;
const EDGES: usize = 1024;
const NONE: u8 = Construct::NONE;

/// The charts to be asked again and again, with their names.
pub fn all() -> [(&'static str, Vec<u8>); 6] {
    [
        ("192 nodes, 1024 edges, 64 barriers", full(64)),
        ("chain of 192, 2 barriers", reference::known::row(NODES, 2)),
        ("192 nodes, 1024 edges, 2 barriers", full(2)),
        ("typical, 62 barriers", typical(61).bytes()),
        ("48 constructs that return", returning().bytes()),
        ("zigzag of 189, 1024 edges", zigzag::chart()),
    ]
}

/// So many different charts of structured code, with about as many nodes as are given, by turns.
pub fn source(nodes: &[usize], count: usize) -> Vec<Vec<u8>> {
    let mut random = Random::new(1_000);
    let mut charts = BTreeSet::new();
    let mut sizes = nodes.iter().cycle();
    while charts.len() < count {
        let style = random.pick(&[Style::FIRST, Style::ALL]);
        let nodes = sizes.next().map_or(MOST_OF_CODE, |&x| x.min(MOST_OF_CODE));
        charts.insert(code::chart(&mut random, nodes, &style).bytes());
    }
    let mut charts: Vec<Vec<u8>> = charts.into_iter().collect();
    random.shuffle(&mut charts);
    charts
}

/// The charts with the most criticals: the locks of all are needed, and those of all can be dropped.
pub fn criticals() -> [(&'static str, Vec<u8>); 2] {
    let locked = |apart: bool, count: usize| {
        let mut chart = ChartBuilder::new();
        chart.barrier();
        for place in 0..count {
            let single = apart.then(|| chart.construct(Construct::SINGLE, NONE, 0));
            let parent = single.unwrap_or(NONE);
            let critical = chart.construct(Construct::CRITICAL, parent, place as u16 % 8);
            single.map(|single| chart.begin(single));
            chart.begin(critical);
            chart.plain(critical);
            chart.end(critical);
            single.map(|single| chart.end(single));
            if apart {
                chart.barrier();
            }
        }
        chart.barrier();
        chart.row();
        chart.bytes()
    };
    [
        ("48 criticals in a row", locked(false, 48)),
        ("24 criticals in singles, apart", locked(true, 24)),
    ]
}

/// A row of 192 nodes with random edges added up to 1,024; inner barriers at every third node.
fn full(barriers: usize) -> Vec<u8> {
    let mut chart = ChartBuilder::new();
    for node in 0..NODES {
        if node == NODES - 1 || (node % 3 == 0 && node / 3 < barriers - 1) {
            chart.barrier();
        } else {
            chart.plain(NONE);
        }
    }
    chart.row();
    let mut random = Random::new(barriers as u64);
    while chart.edges.len() < EDGES {
        let from = random.below(NODES - 1) as u8;
        let to = random.between(1, NODES - 1) as u8;
        if !chart.edges.contains(&Edge { from, to }) {
            chart.edge(from.into(), to.into());
        }
    }
    chart.bytes()
}

/// Barriers in a row; between two of them a small branch or a construct, at so many places.
fn typical(places: usize) -> ChartBuilder {
    let mut chart = ChartBuilder::new();
    let mut barrier = chart.barrier();
    for place in 0..places {
        let exits = match place {
            10 | 40 => vec![simple(&mut chart, barrier, Construct::SINGLE)],
            30 => vec![simple(&mut chart, barrier, Construct::MASTER)],
            15 => vec![do_with_ordered(&mut chart, barrier, true)],
            45 => vec![do_with_ordered(&mut chart, barrier, false)],
            _ => branch(&mut chart, barrier, place % 2 == 0),
        };
        barrier = chart.barrier();
        exits.iter().for_each(|&exit| chart.edge(exit, barrier));
    }
    chart
}

/// Two nodes side by side, of which the second may also follow the first.
fn branch(chart: &mut ChartBuilder, from: usize, joined: bool) -> Vec<usize> {
    let (one, other) = (chart.plain(NONE), chart.plain(NONE));
    chart.edge(from, one);
    chart.edge(from, other);
    if joined {
        chart.edge(one, other);
    }
    vec![one, other]
}

/// A construct around one plain node; gives its end.
fn simple(chart: &mut ChartBuilder, from: usize, kind: u8) -> usize {
    let construct = chart.construct(kind, NONE, 0);
    let begin = chart.begin(construct);
    let plain = chart.plain(construct);
    let end = chart.end(construct);
    chart.edge(from, begin);
    chart.edge(begin, plain);
    chart.edge(plain, end);
    end
}

/// An ordered in a do, around a plain node or around nothing; gives the do's end.
fn do_with_ordered(chart: &mut ChartBuilder, from: usize, filled: bool) -> usize {
    let outer = chart.construct(Construct::DO, NONE, 0);
    let inner = chart.construct(Construct::ORDERED, outer, 0);
    let mut nodes = vec![from, chart.begin(outer), chart.begin(inner)];
    if filled {
        nodes.push(chart.plain(inner));
    }
    nodes.push(chart.end(inner));
    let end = chart.end(outer);
    nodes.push(end);
    nodes.windows(2).for_each(|x| chart.edge(x[0], x[1]));
    end
}

/// 36 outermost constructs in a row with a plain node after each, 12 of them dos with an ordered,
/// all with an edge from end to begin.
fn returning() -> ChartBuilder {
    let mut chart = ChartBuilder::new();
    let mut last = chart.barrier();
    for place in 0..36 {
        let end = match place % 3 {
            0 => do_with_ordered(&mut chart, last, true),
            1 => simple(&mut chart, last, Construct::SINGLE),
            _ => simple(
                &mut chart,
                last,
                Construct::MASTER + u8::from(place % 2 == 0),
            ),
        };
        last = chart.plain(NONE);
        chart.edge(end, last);
    }
    let finish = chart.barrier();
    chart.edge(last, finish);
    for construct in 0..chart.constructs.len() as u8 {
        let is_own = |kind: u8| {
            let mut nodes = chart.nodes.iter();
            nodes.position(|x| x.kind == kind && x.construct == construct)
        };
        let (begin, end) = (is_own(2).unwrap(), is_own(3).unwrap());
        chart.edge(end, begin);
    }
    chart
}
