//! Charts with regions inside regions (02, Note 12): their shapes, and what damages them.

use crate::random::Random;
use crate::valid::{Shape, EDITION_1, FAR_FILTERS};
use reference::builder::ChartBuilder;
use reference::chart::{Chart, Construct, Node};
use reference::known::one_region;

/// Parallels with what may stand above, below and beside them.
pub const NESTED_KINDS: &[u8] = &[
    8, 8, 8, 8, 8, 8, 8, 8, 1, 1, 2, 2, 3, 3, 3, 3, 3, 5, 5, 5, 5, 7, 7, 7, 7,
];

impl Shape {
    /// A chart for the exploration of team states, mostly with parallels.
    pub fn nested(random: &mut Random) -> Shape {
        let constructs = random.between(1, 4).max(random.between(1, 4));
        let others = 10 - 2 * constructs;
        let barriers = random.below(2);
        let inner_barriers = random.between(0, 2).min(others - barriers);
        Shape {
            constructs,
            plain: random
                .between(1, others)
                .min(others - barriers - inner_barriers),
            barriers,
            inner_barriers,
            further_edges: random.between(0, 4),
            window: 10,
            returning: 35,
            kinds: NESTED_KINDS,
            filters: random.pick(&[EDITION_1, EDITION_1, FAR_FILTERS]),
        }
    }
}

/// The parallels of a chart.
pub fn parallels(chart: &ChartBuilder) -> Vec<u8> {
    let numbered = chart.constructs.iter().enumerate();
    let found = numbered.filter(|(_, x)| x.kind == Construct::PARALLEL);
    found.map(|(number, _)| number as u8).collect()
}

/// A parallel added before, or the outermost region. Nothing is drawn where there is no parallel, so that
/// charts without them stay what they are.
pub fn any_region(random: &mut Random, chart: &ChartBuilder) -> u8 {
    match parallels(chart)[..] {
        [] => Construct::NONE,
        _ if random.percent(25) => Construct::NONE,
        ref found => random.pick(found),
    }
}

/// Row 5: a barrier that names a construct that is no parallel, or Start or Finish naming a parallel. What
/// is added for it breaks row 7 at most, which comes later.
pub fn wrong_barrier(random: &mut Random, chart: &mut ChartBuilder) -> Vec<u8> {
    let last = chart.nodes.len() - 1;
    let outer = random.percent(50);
    let wanted = |x: &Construct| (x.kind == Construct::PARALLEL) == outer;
    let named = match chart.constructs.iter().position(wanted) {
        Some(number) => number as u8,
        None if outer => chart.construct(Construct::PARALLEL, Construct::NONE, 0),
        None => chart.construct(Construct::SINGLE, Construct::NONE, 0),
    };
    let is_barrier = |&x: &usize| chart.nodes[x].kind == Node::BARRIER;
    let barriers: Vec<usize> = match outer {
        true => vec![0, last],
        false => (0..=last).filter(is_barrier).collect(),
    };
    chart.nodes[random.pick(&barriers)].construct = named;
    chart.bytes()
}

/// Row 6: a parallel directly in a sections, with a name, or in a construct that is not there yet.
pub fn wrong_parallel(random: &mut Random, chart: &mut ChartBuilder) -> Vec<u8> {
    match random.below(3) {
        0 => {
            let sections = chart.construct(Construct::SECTIONS, Construct::NONE, 0);
            chart.construct(Construct::PARALLEL, sections, 0);
        }
        1 => drop(chart.construct(Construct::PARALLEL, Construct::NONE, 256)),
        _ => {
            let own = chart.constructs.len() as u8;
            chart.construct(Construct::PARALLEL, own, 0);
        }
    }
    chart.bytes()
}

/// A critical below one of the same name, which row 6 refuses, or with a parallel between them, which it
/// does not. They have no begins and ends, so that row 7 refuses them.
pub fn same_name(random: &mut Random, chart: &mut ChartBuilder, parted: bool) -> Vec<u8> {
    let name = random.pick(&[0, 1, 256, 65_535]);
    let outer = chart.construct(Construct::CRITICAL, Construct::NONE, name);
    let between = match parted {
        true => chart.construct(Construct::PARALLEL, outer, 0),
        false => outer,
    };
    chart.construct(Construct::CRITICAL, between, name);
    chart.bytes()
}

/// Row 8: one of the chart's regions filled up with barriers until it has so many, begin and end
/// counted. None if it has no inner region or no room.
pub fn crowded(random: &mut Random, chart: &ChartBuilder, count: usize) -> Option<Vec<u8>> {
    let found = parallels(chart);
    if found.is_empty() {
        return None;
    }
    let region = random.pick(&found);
    let named = |x: &&Node| x.construct == region && x.kind != Node::PLAIN;
    let missing = count.checked_sub(chart.nodes.iter().filter(named).count())?;
    let mut chart = chart.clone();
    for _ in 0..missing {
        let last = chart.nodes.len() - 1;
        chart.nodes.insert(
            last,
            Node {
                kind: Node::BARRIER,
                construct: region,
            },
        );
    }
    (Chart::NODE_LIMITS.contains(&chart.nodes.len())).then(|| chart.bytes())
}

/// A chart with one inner region of so many barriers in a row, begin and end not counted.
pub fn region_of_barriers(count: usize) -> Vec<u8> {
    let barriers = |chart: &mut ChartBuilder, region: u8| {
        for _ in 0..count {
            chart.barrier_of(region);
        }
    };
    one_region(barriers).bytes()
}
