//! Charts for locks that can be dropped. Those of `Shape::locked` have hardly a critical that is shared only by threads
//! which cannot finish.

use crate::random::Random;
use reference::builder::ChartBuilder;
use reference::chart::Construct;

/// What stands around a critical.
const AROUND: &[u8] = &[Construct::SINGLE, Construct::SINGLE, Construct::MASTER];

/// Node 1 parts into branches, at most 24, each with a critical in a construct that one thread enters, and most with a
/// barrier of their own behind it; from some a way leads back, or on to another.
pub fn branching(random: &mut Random, branches: usize) -> ChartBuilder {
    let mut chart = ChartBuilder::new();
    chart.barrier();
    let fork = chart.plain(Construct::NONE);
    chart.edge(0, fork);
    let branches = (0..branches).map(|_| branch(random, &mut chart, 2 * branches));
    let (firsts, lasts): (Vec<usize>, Vec<usize>) = branches.unzip();
    let finish = chart.barrier();
    for (&first, &last) in firsts.iter().zip(&lasts) {
        chart.edge(fork, first);
        chart.edge(last, finish);
        if random.percent(15) {
            chart.edge(last, random.pick(&firsts));
        }
        if random.percent(10) {
            chart.edge(last, fork);
        }
    }
    chart
}

/// Adds a branch and gives its first node and its last: a barrier, or the end of what stands around the critical, which
/// has a name that many have, or any of so many.
fn branch(random: &mut Random, chart: &mut ChartBuilder, names: usize) -> (usize, usize) {
    let around = chart.construct(random.pick(AROUND), Construct::NONE, 0);
    let name = match random.percent(70) {
        true => 7,
        false => 256 * random.below(names) as u16,
    };
    let critical = chart.construct(Construct::CRITICAL, around, name);
    let first = chart.begin(around);
    chart.begin(critical);
    chart.plain(critical);
    chart.end(critical);
    let end = chart.end(around);
    let last = match random.percent(80) {
        true => chart.barrier(),
        false => end,
    };
    (first..last).for_each(|node| chart.edge(node, node + 1));
    (first, last)
}
