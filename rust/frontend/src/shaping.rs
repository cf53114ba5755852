//! A region's flow brought to the shape of a chart: what is no flow of the team's threads is cut out,
//! barriers that a chart cannot have become plain code, and what no finished run reaches is dropped.

use crate::constructs::{Constructs, GivenUp};
use crate::flow::{DirectiveKind, NodeKind};
use crate::graph::{Graph, Node};
use crate::program::Target;
use region::ConstructKind;
use std::collections::BTreeSet;

/// A region whose nodes are those of a chart, not yet joined and numbered.
pub(crate) struct Shape {
    pub graph: Graph,
    pub constructs: Constructs,
    /// The directive that each node lies in, as a construct.
    pub scopes: Vec<Option<usize>>,
    /// What calls of the region come to that were not opened.
    pub calls: BTreeSet<Target>,
    /// Criticals of the region's code, and those of them that are no constructs of the chart.
    pub criticals: Vec<usize>,
    pub hidden: BTreeSet<usize>,
}

/// The shape of a region; none where no run of it finishes.
pub(crate) fn shape(mut graph: Graph, given_up: GivenUp) -> Option<Shape> {
    let criticals: Vec<usize> = met(&graph, DirectiveKind::Critical);
    let calls = graph.live().flat_map(|x| x.1.calls.iter()).collect();
    cut(&mut graph);
    let mut constructs = Constructs::choose(&graph);
    settle_barriers(&mut graph, &mut constructs);
    constructs.give_up(&graph, given_up);
    constructs.loosen(&mut graph);
    prune(&mut graph, &mut constructs)?;
    let scopes = settle_kinds(&mut graph, &mut constructs, given_up);
    let is_kept = |x: &usize| constructs.kinds[*x] == Some(ConstructKind::Critical);
    Some(Shape {
        hidden: criticals.iter().copied().filter(|x| !is_kept(x)).collect(),
        criticals,
        graph,
        constructs,
        scopes,
        calls,
    })
}

/// The directives of a kind that the flow opens.
fn met(graph: &Graph, kind: DirectiveKind) -> Vec<usize> {
    let opened = graph.live().filter(|x| x.1.kind == NodeKind::Open);
    let directives = opened.filter_map(|x| x.1.of);
    directives
        .filter(|&x| graph.directives[x].kind == kind)
        .collect()
}

/// The bodies of tasks and of code for other devices are no flow of the thread that meets them.
fn cut(graph: &mut Graph) {
    let elsewhere = graph.at_or_inside(DirectiveKind::is_elsewhere);
    for (kind, why) in [
        (DirectiveKind::Task, "inside a task"),
        (DirectiveKind::Target, "inside a target"),
        (DirectiveKind::Teams, "inside a teams"),
    ] {
        let mut gone = vec![false; graph.nodes.len()];
        for (number, node) in graph.live() {
            let outermost = node.within.and_then(|x| elsewhere[x]);
            gone[number] = outermost.is_some_and(|x| graph.directives[x].kind == kind);
        }
        graph.drop_nodes(&gone, Some(why));
    }
    let frames = graph.frames();
    for (directive, frame) in graph.directives.iter().zip(frames) {
        if let ([Some(open), Some(close)], true) = (frame, directive.kind.is_elsewhere()) {
            graph.next[open].insert(close);
        }
    }
}

/// Barriers of deeper regions are plain code, and so are those that not all threads wait at, or that
/// stand inside a construct, as a routine's may.
fn settle_barriers(graph: &mut Graph, constructs: &mut Constructs) {
    let deeper = graph.at_or_inside(|x| x == DirectiveKind::Parallel);
    let is_cancelled = graph.directives[graph.region].is_cancelled;
    for number in 0..graph.nodes.len() {
        let Some(node) = &graph.nodes[number] else {
            continue;
        };
        let is_barrier = node.kind == NodeKind::Barrier;
        let is_deeper = node.within.is_some_and(|x| deeper[x].is_some());
        let is_inside = constructs.enclosing(graph, node.within).next().is_some();
        if node.kind == NodeKind::Weak || (is_barrier && is_cancelled) {
            constructs.lessen("barrier: it can be cancelled or OpenMP does not promise it".into());
        } else if is_barrier && !is_deeper && is_inside {
            constructs.lessen("barrier: inside a construct".into());
        }
        let stays = match node.kind {
            NodeKind::Barrier => !is_cancelled && !is_deeper && !is_inside,
            kind => matches!(kind, NodeKind::Open | NodeKind::Close),
        };
        if let (false, Some(node)) = (stays, &mut graph.nodes[number]) {
            node.kind = NodeKind::Plain;
        }
    }
}

/// Drops what cannot be reached, and what does not reach the end.
fn prune(graph: &mut Graph, constructs: &mut Constructs) -> Option<()> {
    loop {
        let forward = graph.reach(graph.start, &graph.next);
        let backward = graph.reach(graph.finish, &graph.previous());
        let is_gone = |x: usize| !(forward[x] && backward[x]);
        let frames = graph.frames();
        let lost = |directive: &usize| {
            let is_construct = constructs.kinds[*directive].is_some();
            is_construct && frames[*directive].iter().flatten().any(|&x| is_gone(x))
        };
        // Threads that do not enter walk past a body that does not end.
        let stuck = |directive: &usize| {
            use ConstructKind::{Do, Master, Sections, Single};
            let kind = constructs.kinds[*directive];
            let [open, close] = frames[*directive].map(|x| x.is_some_and(|x| forward[x]));
            matches!(kind, Some(Single | Master | Do | Sections)) && open && !close
        };
        let lost: Vec<usize> = (0..graph.directives.len()).filter(lost).collect();
        let stuck: Vec<usize> = lost.iter().copied().filter(stuck).collect();
        if !lost.is_empty() {
            let dissolved = if stuck.is_empty() { lost } else { stuck };
            for directive in dissolved {
                constructs.dissolve(graph, directive, "its body does not end");
            }
            constructs.loosen(graph);
            continue;
        }
        if is_gone(graph.start) || is_gone(graph.finish) {
            return None;
        }
        let live: Vec<bool> = graph.nodes.iter().map(Option::is_some).collect();
        if !(0..live.len()).any(|x| live[x] && is_gone(x)) {
            return Some(());
        }
        let ends: Vec<bool> = (0..live.len()).map(|x| is_gone(x) && forward[x]).collect();
        let unreached: Vec<bool> = (0..live.len()).map(|x| !forward[x]).collect();
        graph.drop_nodes(&ends, Some("the program ends or hangs there"));
        graph.drop_nodes(&unreached, None);
    }
}

/// The last kinds of nodes, and the construct that each lies in.
fn settle_kinds(
    graph: &mut Graph,
    constructs: &mut Constructs,
    given_up: GivenUp,
) -> Vec<Option<usize>> {
    let ends = [graph.start, graph.finish];
    let scope = |(number, node): (usize, &Option<Node>)| {
        let within = node.as_ref().filter(|_| !ends.contains(&number))?.within;
        constructs.enclosing(graph, within).next()
    };
    let scopes = graph.nodes.iter().enumerate().map(scope).collect();
    let mut barriers = 0;
    for (number, node) in graph.nodes.iter_mut().enumerate() {
        let Some(node) = node else { continue };
        let is_framing = node.of.is_some_and(|x| constructs.kinds[x].is_some());
        let is_end = ends.contains(&number);
        barriers += usize::from(node.kind == NodeKind::Barrier && !is_end);
        node.kind = match node.kind {
            _ if is_end => NodeKind::Barrier,
            NodeKind::Open | NodeKind::Close if !is_framing => NodeKind::Plain,
            NodeKind::Barrier if given_up.barriers.is_some_and(|x| barriers > x) => {
                constructs.lessen("barrier: over the limits of a chart".into());
                NodeKind::Plain
            }
            kind => kind,
        };
        node.of = node.of.filter(|_| is_framing && !is_end);
    }
    scopes
}
