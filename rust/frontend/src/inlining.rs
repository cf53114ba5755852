//! The flow of a region out of the flow of its function, with calls opened where the callee's flow is
//! known and has barriers or constructs of the team.

use crate::flow::{Body, DirectiveKind, FlowNode, NodeKind, SourceLine};
use crate::graph::{Graph, Node, Record};
use crate::program::{Program, Target};
use crate::set::Set;
use std::collections::BTreeMap;

/// How deep calls are opened, and up to how many nodes.
const MOST_DEPTH: usize = 6;
const MOST_NODES: usize = 20_000;

/// A parallel of a function.
#[derive(Clone, Copy, Debug, PartialEq, Eq, PartialOrd, Ord)]
pub(crate) struct Parallel {
    pub function: usize,
    pub directive: usize,
}

/// A region's flow, and the routines that were left closed though they matter.
pub(crate) struct Opened {
    pub graph: Graph,
    pub closed: BTreeMap<usize, &'static str>,
}

/// The flow of a region; none where it has no end.
pub(crate) fn open(program: &Program, region: Parallel, opens_calls: bool) -> Option<Opened> {
    let body = program.functions[region.function].body.as_ref().ok()?;
    let mut inlining = Inlining {
        program,
        graph: own_flow(program, body, region)?,
        closed: BTreeMap::new(),
        work: Vec::new(),
    };
    let calls: Vec<usize> = inlining.graph.live().map(|x| x.0).collect();
    inlining.push(calls, &[region.function]);
    while let Some((node, stack)) = inlining.work.pop() {
        inlining.call(node, &stack, opens_calls);
    }
    set_depths(&mut inlining.graph);
    Some(Opened {
        graph: inlining.graph,
        closed: inlining.closed,
    })
}

struct Inlining<'a> {
    program: &'a Program,
    graph: Graph,
    closed: BTreeMap<usize, &'static str>,
    /// Calls of known routines, each with the functions that led there.
    work: Vec<(usize, Vec<usize>)>,
}

impl Inlining<'_> {
    fn push(&mut self, nodes: Vec<usize>, stack: &[usize]) {
        for node in nodes {
            if known_callee(&self.graph, node).is_some() {
                self.work.push((node, stack.to_vec()));
            }
        }
    }

    fn call(&mut self, number: usize, stack: &[usize], opens_calls: bool) {
        let Some(callee) = known_callee(&self.graph, number) else {
            return;
        };
        if !self.program.matters(callee) {
            return;
        }
        match self.reason_to_close(callee, stack, opens_calls) {
            Some(reason) => _ = self.closed.entry(callee).or_insert(reason),
            None => self.open_call(number, callee, stack),
        }
    }

    fn reason_to_close(
        &self,
        callee: usize,
        stack: &[usize],
        opens_calls: bool,
    ) -> Option<&'static str> {
        if !opens_calls {
            Some("left closed to keep within the limits of a chart")
        } else if stack.contains(&callee) {
            Some("it calls itself")
        } else if stack.len() > MOST_DEPTH || self.graph.nodes.len() > MOST_NODES {
            Some("too many calls are open around it")
        } else {
            None
        }
    }

    /// Puts the routine's flow between the call and what follows it.
    fn open_call(&mut self, number: usize, callee: usize, stack: &[usize]) {
        let (Ok(body), Some(node)) = (
            &self.program.functions[callee].body,
            &self.graph.nodes[number],
        ) else {
            return;
        };
        let mut via = node.via.clone();
        via.extend(&node.lines);
        let within = node.within;
        let (program, graph) = (self.program, &mut self.graph);
        let copied = copy(program, graph, callee, body, |_| true, within, &via);
        let (Some(entry), Some(exit)) = (copied[body.entry], copied[body.exit]) else {
            return;
        };
        graph.next[exit] = std::mem::take(&mut graph.next[number]);
        graph.next[number].insert(entry);
        if let Some(node) = &mut graph.nodes[entry] {
            (node.lines, node.last) = (Set::default(), None);
        }
        if let Some(node) = &mut graph.nodes[number] {
            (node.kind, node.calls) = (NodeKind::Plain, Set::default());
        }
        let stack: Vec<usize> = stack.iter().copied().chain([callee]).collect();
        self.push(copied.into_iter().flatten().collect(), &stack);
    }
}

/// How many regions deeper than this one each node is entered at. The end of a deeper region is its own
/// threads'.
fn set_depths(graph: &mut Graph) {
    let is_parallel = |x: usize| graph.directives[x].kind == DirectiveKind::Parallel;
    let mut depths = Vec::with_capacity(graph.directives.len());
    for (number, directive) in graph.directives.iter().enumerate() {
        let around: usize = directive.parent.map_or(0, |x| depths[x]);
        depths.push(around + usize::from(number != graph.region && is_parallel(number)));
    }
    let depth = |node: &Node| {
        let ends = node.kind == NodeKind::Close;
        let own = node.of.filter(|&x| ends && is_parallel(x));
        own.or(node.within).map_or(0, |x| depths[x])
    };
    let found: Vec<usize> = graph.live().map(|x| depth(x.1)).collect();
    for (node, depth) in graph.nodes.iter_mut().flatten().zip(found) {
        let records = node.records.iter();
        node.records = records.map(|x| Record { depth, ..x }).collect();
    }
}

/// The routine of known flow that a node calls.
fn known_callee(graph: &Graph, node: usize) -> Option<usize> {
    match graph.nodes[node].as_ref()?.calls.only()? {
        Target::Known(function) => Some(function),
        Target::Unknown(_) | Target::Pointer | Target::Library => None,
    }
}

/// What of the function's flow lies in the region, between its two nodes.
fn own_flow(program: &Program, body: &Body, region: Parallel) -> Option<Graph> {
    let mut graph = Graph::default();
    let (open, close) = body.frames[region.directive];
    let close = close?;
    let inside = |x: usize| {
        x == open
            || x == close
            || body
                .around(body.nodes[x].within)
                .any(|y| y == region.directive)
    };
    let no_lines = Set::default();
    let copied = copy(
        program,
        &mut graph,
        region.function,
        body,
        inside,
        None,
        &no_lines,
    );
    (graph.start, graph.finish) = (copied[open]?, copied[close]?);
    graph.region = region.directive;
    graph.next[graph.finish] = Set::default();
    // Directives around the region do not count.
    for number in 0..graph.directives.len() {
        let is_inside = body
            .around(graph.directives[number].parent)
            .any(|x| x == region.directive);
        if !is_inside {
            graph.directives[number].parent = None;
        }
    }
    for end in [graph.start, graph.finish] {
        if let Some(node) = &mut graph.nodes[end] {
            node.within = None;
        }
    }
    Some(graph)
}

/// What a recorded run has for a node of a function.
fn record(function: usize, number: usize, node: &FlowNode) -> Option<Record> {
    let is_framing = matches!(node.kind, NodeKind::Entry | NodeKind::Exit);
    (!node.is_mute && !is_framing).then_some(Record {
        function,
        node: number,
        depth: 0,
    })
}

/// Copies the nodes of a function that are kept; what lies in none of its directives lies where the call
/// does. Returns the number of each in the graph.
fn copy(
    program: &Program,
    graph: &mut Graph,
    function: usize,
    body: &Body,
    keep: impl Fn(usize) -> bool,
    within: Option<usize>,
    via: &Set<SourceLine>,
) -> Vec<Option<usize>> {
    let base = graph.directives.len();
    let moved = |x: Option<usize>| x.map_or(within, |x| Some(base + x));
    for (number, directive) in body.directives.iter().enumerate() {
        let mut directive = directive.clone();
        directive.parent = moved(directive.parent);
        graph.directives.push(directive);
        graph.origins.push((function, number));
    }
    let mut copied = vec![None; body.nodes.len()];
    for (number, node) in body.nodes.iter().enumerate().filter(|x| keep(x.0)) {
        copied[number] = Some(
            graph.add(Node {
                kind: node.kind,
                within: moved(node.within),
                of: node.of.map(|x| base + x),
                calls: node
                    .callee
                    .map(|x| program.target(function, x))
                    .into_iter()
                    .collect(),
                lines: node.lines.iter().copied().collect(),
                last: node.lines.iter().copied().max(),
                via: via.clone(),
                records: record(function, number, node).into_iter().collect(),
                // Who has no turn of a loop does not come to its close.
                is_passed: node.kind == NodeKind::Close || record(function, number, node).is_none(),
            }),
        );
    }
    for &(from, to) in &body.edges {
        if let (Some(from), Some(to)) = (copied[from], copied[to]) {
            graph.next[from].insert(to);
        }
    }
    copied
}
