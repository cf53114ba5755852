//! Charts with constructs of more sorts: many of one sort, and those of all sorts beside each other. Nodes are in the
//! order of the text; every sixth construct is behind a barrier, every fourth can be passed by.

use super::code::{self, Style};
use super::{do_with_ordered, simple, NONE};
use crate::random::Random;
use crate::valid::{valid, Shape, ALL_KINDS, EDITION_1, NEAR_FILTERS};
use reference::builder::ChartBuilder;
use reference::chart::Construct;
use reference::masked;

/// The most constructs of a chart.
const MOST: usize = 48;
/// The filters of masked constructs.
const FILTERS: usize = 6;
const SECTIONS: usize = 5;
const NESTED: usize = 4;

/// Writes a construct with all inside it behind a node, by its place in the row; gives its begin and its end.
type Sort = fn(&mut ChartBuilder, usize, usize) -> (usize, usize);

const ALL: [Sort; 6] = [
    criticals,
    single,
    ordered_do,
    sections,
    masked_construct,
    critical,
];

/// The charts to be asked again and again, with their names.
pub fn sorts() -> [(&'static str, Vec<u8>); 7] {
    [
        ("48 criticals, nested by fours", row(&[criticals], MOST)),
        ("24 dos with ordereds", row(&[ordered_do], MOST)),
        ("40 singles, half return", row(&[single], 40)),
        ("8 sections of five", row(&[sections], MOST)),
        ("40 masked of six filters", row(&[masked_construct], 40)),
        ("10 constructs of all sorts", row(&ALL, 10)),
        ("48 constructs of all sorts", row(&ALL, MOST)),
    ]
}

/// 64 charts with 10 to 48 constructs of all sorts: half of structured code, half at random; in an order without
/// order.
pub fn sorts_in_turn() -> Vec<Vec<u8>> {
    let mut random = Random::new(48);
    let mut charts = Vec::new();
    for _ in 0..32 {
        charts.push(structured(&mut random).bytes());
        charts.push(drawn(&mut random).bytes());
    }
    random.shuffle(&mut charts);
    charts
}

/// Constructs of some sorts by turns, those for which there is room.
fn row(sorts: &[Sort], most: usize) -> Vec<u8> {
    let mut chart = ChartBuilder::new();
    let mut exits = vec![chart.barrier()];
    for place in 0..most {
        let mut longer = chart.clone();
        let before = join(&mut longer, &exits, place % 6 == 5);
        let (begin, end) = sorts[place % sorts.len()](&mut longer, place, before);
        if longer.constructs.len() > most {
            continue;
        }
        if place % 2 == 1 {
            longer.edge(end, begin);
        }
        exits = match place % 4 {
            3 => vec![before, end],
            _ => vec![end],
        };
        chart = longer;
    }
    join(&mut chart, &exits, true);
    if chart.constructs.iter().any(|x| x.filter != 0) {
        chart.edition = masked::EDITION;
    }
    chart.bytes()
}

/// The node that some lead to: a barrier or a plain one.
fn join(chart: &mut ChartBuilder, exits: &[usize], barrier: bool) -> usize {
    let node = match barrier {
        true => chart.barrier(),
        false => chart.plain(NONE),
    };
    exits.iter().for_each(|&exit| chart.edge(exit, node));
    node
}

/// A construct around one plain node.
fn around(chart: &mut ChartBuilder, from: usize, construct: u8) -> (usize, usize) {
    let nodes = [
        from,
        chart.begin(construct),
        chart.plain(construct),
        chart.end(construct),
    ];
    nodes.windows(2).for_each(|x| chart.edge(x[0], x[1]));
    (nodes[1], nodes[3])
}

fn single(chart: &mut ChartBuilder, _: usize, from: usize) -> (usize, usize) {
    let end = simple(chart, from, Construct::SINGLE);
    (end - 2, end)
}

fn critical(chart: &mut ChartBuilder, place: usize, from: usize) -> (usize, usize) {
    let construct = chart.construct(Construct::CRITICAL, NONE, (place % 4) as u16);
    around(chart, from, construct)
}

fn masked_construct(chart: &mut ChartBuilder, place: usize, from: usize) -> (usize, usize) {
    let construct = chart.masked(NONE, (place % FILTERS) as u16);
    around(chart, from, construct)
}

/// A do whose ordered is met again in the next turn of its loop.
fn ordered_do(chart: &mut ChartBuilder, _: usize, from: usize) -> (usize, usize) {
    let end = do_with_ordered(chart, from, true);
    chart.edge(end - 1, end - 3);
    (end - 4, end)
}

/// Criticals in each other, of different names.
fn criticals(chart: &mut ChartBuilder, place: usize, from: usize) -> (usize, usize) {
    let (mut scope, mut last) = (NONE, from);
    let mut opened = Vec::new();
    for depth in 0..NESTED {
        let name = (8 * depth + place % 3) as u16;
        scope = chart.construct(Construct::CRITICAL, scope, name);
        opened.push(scope);
        let begin = chart.begin(scope);
        chart.edge(last, begin);
        last = begin;
    }
    let begin = last + 1 - NESTED;
    let plain = chart.plain(scope);
    chart.edge(last, plain);
    last = plain;
    for scope in opened.into_iter().rev() {
        let end = chart.end(scope);
        chart.edge(last, end);
        last = end;
    }
    (begin, last)
}

fn sections(chart: &mut ChartBuilder, _: usize, from: usize) -> (usize, usize) {
    let outer = chart.construct(Construct::SECTIONS, NONE, 0);
    let begin = chart.begin(outer);
    chart.edge(from, begin);
    let ends: Vec<usize> = (0..SECTIONS)
        .map(|_| {
            let section = chart.construct(Construct::SECTION, outer, 0);
            around(chart, begin, section).1
        })
        .collect();
    let end = chart.end(outer);
    ends.iter().for_each(|&inner| chart.edge(inner, end));
    (begin, end)
}

/// Structured code, drawn until it has ten constructs.
fn structured(random: &mut Random) -> ChartBuilder {
    loop {
        let nodes = random.between(60, 160);
        let chart = code::chart(random, nodes, &Style::ALL);
        if chart.constructs.len() >= 10 {
            return chart;
        }
    }
}

fn drawn(random: &mut Random) -> ChartBuilder {
    let constructs = random.between(10, MOST);
    let shape = Shape {
        constructs,
        plain: random.between(20, 170 - 2 * constructs),
        barriers: random.between(0, 20),
        inner_barriers: 0,
        further_edges: random.between(0, 60),
        window: random.pick(&[1, 3, 20]),
        returning: 35,
        kinds: ALL_KINDS,
        filters: random.pick(&[EDITION_1, NEAR_FILTERS]),
    };
    valid(random, &shape)
}
