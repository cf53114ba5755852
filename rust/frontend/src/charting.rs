//! The chart of a region within the limits, as exact as they allow.

use crate::constructs::GivenUp;
use crate::flow::NodeKind;
use crate::inlining::{self, Parallel};
use crate::program::Program;
use crate::records::{records, Charted};
use crate::shaping::{shape, Shape};
use bohrali::limits::{MOST_BARRIERS, MOST_CONSTRUCTS, MOST_EDGES, MOST_NODES};

/// Why an attempt gives no chart.
enum Failed {
    NoChart(String),
    OverLimits,
}

/// The chart of a region, or why it has none.
pub(crate) fn chart(program: &Program, region: Parallel) -> Result<Charted, String> {
    let first = (GivenUp::default(), false);
    let others = attempts().into_iter().map(|x| (x, true));
    for (given_up, merges) in std::iter::once(first).chain(others) {
        match attempt(program, region, given_up, merges) {
            Ok(charted) => return Ok(charted),
            Err(Failed::NoChart(why)) => return Err(why),
            Err(Failed::OverLimits) => {}
        }
    }
    Err("it is over the limits of a chart".into())
}

/// What is given up, each time more; nothing at first.
fn attempts() -> Vec<GivenUp> {
    let none = GivenUp::default();
    let criticals = GivenUp {
        criticals: true,
        ..none
    };
    let calls = GivenUp {
        calls: true,
        ..none
    };
    let both = GivenUp {
        calls: true,
        ..criticals
    };
    let dos = GivenUp { dos: true, ..both };
    let inner = MOST_BARRIERS - 2;
    let barriers = GivenUp {
        barriers: Some(inner),
        ..both
    };
    let all = [inner, 48, 32, 16, 8, 0].map(|most| GivenUp {
        constructs: true,
        barriers: Some(most),
        ..both
    });
    let mut attempts = vec![none, criticals, calls, both, dos, barriers];
    attempts.extend(all);
    attempts
}

fn attempt(
    program: &Program,
    region: Parallel,
    given_up: GivenUp,
    merges: bool,
) -> Result<Charted, Failed> {
    let never_ends = || Failed::NoChart("the region never ends".into());
    let opened = inlining::open(program, region, !given_up.calls).ok_or_else(never_ends)?;
    let mut shape = shape(opened.graph, given_up).ok_or_else(never_ends)?;
    shape.contract();
    shape.line_up();
    let mut lost = Vec::new();
    let [nodes, edges] = size(&shape);
    if merges || nodes > MOST_NODES || edges > MOST_EDGES {
        shape.merge();
        lost.push(format!(
            "nothing by joining plain nodes that no rule tells apart: {nodes} nodes are {}",
            size(&shape)[0]
        ));
    }
    if is_over(&shape) {
        return Err(Failed::OverLimits);
    }
    lost.extend(losses(given_up));
    let mut charted = records(&program.words, shape).map_err(Failed::NoChart)?;
    (charted.closed, charted.lost) = (opened.closed, lost);
    Ok(charted)
}

/// The nodes and the edges.
fn size(shape: &Shape) -> [usize; 2] {
    [shape.graph.live().count(), shape.graph.edges().count()]
}

fn is_over(shape: &Shape) -> bool {
    let [nodes, edges] = size(shape);
    let barriers = shape.graph.live().filter(|x| x.1.kind == NodeKind::Barrier);
    nodes > MOST_NODES
        || edges > MOST_EDGES
        || barriers.count() > MOST_BARRIERS
        || shape.constructs.kinds.iter().flatten().count() > MOST_CONSTRUCTS
}

/// What attempts cost, in words.
fn losses(given_up: GivenUp) -> Vec<String> {
    let parts = [
        (given_up.calls, "what routines that it calls do"),
        (given_up.criticals, "its criticals"),
        (given_up.dos, "its loops without ordereds"),
        (given_up.constructs, "all its constructs"),
    ];
    let lost = parts.iter().filter(|x| x.0).map(|x| x.1.to_string());
    let barriers = given_up
        .barriers
        .map(|x| format!("its barriers but for {x}"));
    lost.chain(barriers)
        .map(|x| format!("nevers that rest on {x}"))
        .collect()
}

#[cfg(test)]
mod tests {
    use super::*;
    use crate::flow::DirectiveKind;
    use crate::testing::{random_code, Source};
    use bohrali::Region;
    use charts::random::Random;
    use std::collections::{BTreeMap, BTreeSet};

    const REGION: Parallel = Parallel {
        function: 0,
        directive: 0,
    };

    /// The answers for each two lines, over all nodes that have them.
    fn answers(charted: &Charted) -> BTreeMap<(u32, u32), BTreeSet<u8>> {
        let width = charted.chart.nodes.len();
        let mut sheet = vec![0; width * width];
        bohrali::sheet(&charted.chart.encode(), Region::Outermost, &mut sheet).expect("a sheet");
        let lines = |node: usize| charted.lines[node][0].iter().map(|x| x.line);
        let mut answers: BTreeMap<_, BTreeSet<u8>> = BTreeMap::new();
        for (place, answer) in sheet.iter().enumerate() {
            for a in lines(place / width) {
                for b in lines(place % width) {
                    answers.entry((a, b)).or_default().insert(*answer);
                }
            }
        }
        answers
    }

    fn random_program(seed: u64) -> Program {
        let mut random = Random::new(seed);
        let mut source = Source::new();
        random_code(&mut random, &mut source, 12);
        source.program()
    }

    fn charted(program: &Program, given_up: GivenUp, merges: bool) -> Option<Charted> {
        match attempt(program, REGION, given_up, merges) {
            Ok(charted) => Some(charted),
            Err(Failed::OverLimits) => None,
            Err(Failed::NoChart(why)) => panic!("{why}"),
        }
    }

    #[test]
    fn merging_changes_no_answer() {
        let mut compared = 0;
        for seed in 0..2000 {
            let program = random_program(seed);
            let Some(plain) = charted(&program, GivenUp::default(), false) else {
                continue;
            };
            let merged =
                charted(&program, GivenUp::default(), true).expect("no larger than before");
            assert_eq!(answers(&plain), answers(&merged), "seed {seed}");
            compared += 1;
        }
        assert!(compared > 1500, "{compared} were compared");
    }

    #[test]
    fn what_is_given_up_loses_only_nevers() {
        for seed in 0..500 {
            let program = random_program(seed);
            let Some(full) = charted(&program, GivenUp::default(), false) else {
                continue;
            };
            let full = answers(&full);
            for given_up in attempts() {
                let Some(less) = charted(&program, given_up, true) else {
                    continue;
                };
                for (lines, found) in answers(&less) {
                    let is_never = |x: &BTreeSet<u8>| !x.contains(&0);
                    let stays = !is_never(&found) || is_never(&full[&lines]);
                    assert!(stays, "seed {seed}, {given_up:?}, lines {lines:?}");
                }
            }
        }
    }

    #[test]
    fn a_region_over_every_limit_has_a_chart_that_names_its_losses() {
        let mut source = Source::new();
        for _ in 0..100 {
            source.open(DirectiveKind::Master, "");
            source.turns(&mut |x| x.branch([&mut |x| x.barrier(), &mut |x| _ = x.plain()]));
            source.close();
            source.barrier();
        }
        let charted = chart(&source.program(), REGION).expect("a chart");
        let lost = charted.lost.join("; ");
        assert!(lost.contains("all its constructs"), "{lost}");
        assert!(charted.chart.nodes.len() <= MOST_NODES);
    }

    #[test]
    fn a_region_of_many_nodes_loses_nothing() {
        let mut source = Source::new();
        for _ in 0..300 {
            source.branch([&mut |x| _ = x.plain(), &mut |x| _ = x.plain()]);
        }
        source.barrier();
        source.plain();
        let charted = chart(&source.program(), REGION).expect("a chart");
        assert_eq!(charted.chart.nodes.len(), 5);
        assert!(
            charted.lost[0].starts_with("nothing by joining"),
            "{:?}",
            charted.lost
        );
    }

    #[test]
    fn a_region_that_never_ends_has_no_chart() {
        let mut source = Source::new();
        source.turns(&mut |x| _ = x.plain());
        source.ends.clear();
        assert_eq!(
            chart(&source.program(), REGION).map(|_| ()),
            Err("the region never ends".into())
        );
    }

    #[test]
    fn a_routine_that_calls_itself_is_left_closed() {
        let mut source = Source::new();
        source.call("g");
        source.plain();
        source.other(
            "g",
            "node 0 entry -1\nnode 1 exit -1\nnode 2 barrier -1 0:9\nnode 3 call -1 callee=g 0:9\nedge 0 2\nedge 2 1\nedge 2 3\nedge 3 1\n",
        );
        let charted = chart(&source.program(), REGION).expect("a chart");
        assert_eq!(
            charted.closed.values().collect::<Vec<_>>(),
            [&"it calls itself"]
        );
        assert_eq!(
            charted
                .chart
                .nodes
                .iter()
                .filter(|x| x.kind == region::NodeKind::Barrier)
                .count(),
            3
        );
    }
}
