//! The flow of one region, with the routines that were opened copied in. Nodes and directives are numbered
//! in the order in which they came, and a directive comes behind the one around it.

use crate::flow::{Directive, DirectiveKind, NodeKind, SourceLine};
use crate::program::Target;
use crate::set::Set;
use std::collections::BTreeMap;

/// What a recorded run has for a node: a function's node, so many regions below the region.
#[derive(Clone, Copy, Debug, PartialEq, Eq, PartialOrd, Ord, Hash)]
pub(crate) struct Record {
    pub function: usize,
    pub node: usize,
    pub depth: usize,
}

#[derive(Clone, Debug)]
pub(crate) struct Node {
    pub kind: NodeKind,
    pub within: Option<usize>,
    pub of: Option<usize>,
    /// What calls at the node come to that were not opened.
    pub calls: Set<Target>,
    pub lines: Set<SourceLine>,
    /// The one of its lines that comes last.
    pub last: Option<SourceLine>,
    /// The lines of the calls that led here.
    pub via: Set<SourceLine>,
    /// Empty where a recorded run has no entry for it.
    pub records: Set<Record>,
    /// A thread may come through it without an entry.
    pub is_passed: bool,
}

#[derive(Clone, Debug, Default)]
pub(crate) struct Graph {
    /// None where a node is no more.
    pub nodes: Vec<Option<Node>>,
    pub next: Vec<Set<usize>>,
    pub directives: Vec<Directive>,
    /// The function of each directive, and its number there.
    pub origins: Vec<(usize, usize)>,
    pub region: usize,
    pub start: usize,
    pub finish: usize,
    /// Lines that get no answer, and why.
    pub unanswered: BTreeMap<SourceLine, &'static str>,
    /// Calls in code that gets no answer, and why.
    pub unanswered_calls: BTreeMap<Target, &'static str>,
}

impl Graph {
    pub fn add(&mut self, node: Node) -> usize {
        self.nodes.push(Some(node));
        self.next.push(Set::default());
        self.nodes.len() - 1
    }

    /// The nodes that are there, rising.
    pub fn live(&self) -> impl Iterator<Item = (usize, &Node)> {
        let numbered = self.nodes.iter().enumerate();
        numbered.filter_map(|(number, x)| Some((number, x.as_ref()?)))
    }

    pub fn is_plain(&self, node: usize) -> bool {
        self.kind(node) == Some(NodeKind::Plain)
    }

    pub fn kind(&self, node: usize) -> Option<NodeKind> {
        Some(self.nodes[node].as_ref()?.kind)
    }

    pub fn previous(&self) -> Vec<Set<usize>> {
        let mut previous = vec![Vec::new(); self.nodes.len()];
        for (from, to) in self.edges() {
            previous[to].push(from);
        }
        previous.into_iter().map(Set::from_iter).collect()
    }

    pub fn edges(&self) -> impl Iterator<Item = (usize, usize)> + '_ {
        let sets = self.next.iter().enumerate();
        sets.flat_map(|(from, set)| set.iter().map(move |to| (from, to)))
    }

    /// The nodes of each directive, where it is opened and where it is closed.
    pub fn frames(&self) -> Vec<[Option<usize>; 2]> {
        let mut frames = vec![[None; 2]; self.directives.len()];
        for (number, node) in self.live() {
            match (node.of, node.kind) {
                (Some(directive), NodeKind::Open) => frames[directive][0] = Some(number),
                (Some(directive), NodeKind::Close) => frames[directive][1] = Some(number),
                _ => {}
            }
        }
        frames
    }

    /// Whether each node is reached from one, along these edges.
    pub fn reach(&self, from: usize, edges: &[Set<usize>]) -> Vec<bool> {
        let mut seen = vec![false; self.nodes.len()];
        let mut work = vec![from];
        seen[from] = true;
        while let Some(node) = work.pop() {
            for to in edges[node].iter() {
                if !std::mem::replace(&mut seen[to], true) {
                    work.push(to);
                }
            }
        }
        seen
    }

    /// Takes a node out, with the reason why its lines get no answer, if they do not.
    pub fn drop_node(&mut self, number: usize, why: Option<&'static str>) {
        let Some(node) = self.nodes[number].take() else {
            return;
        };
        self.next[number] = Set::default();
        let Some(why) = why else { return };
        for line in node.lines.iter().chain(node.via.iter()) {
            self.unanswered.entry(line).or_insert(why);
        }
        for target in node.calls.iter() {
            self.unanswered_calls.entry(target).or_insert(why);
        }
    }

    /// Takes nodes out with the edges to them.
    pub fn drop_nodes(&mut self, gone: &[bool], why: Option<&'static str>) {
        for number in (0..gone.len()).filter(|&x| gone[x]) {
            self.drop_node(number, why);
        }
        for set in &mut self.next {
            if set.iter().any(|x| gone[x]) {
                *set = set.iter().filter(|&x| !gone[x]).collect();
            }
        }
    }

    /// For each directive whether it, or one around it inside the region, is one of these.
    pub fn at_or_inside(&self, is_one: impl Fn(DirectiveKind) -> bool) -> Vec<Option<usize>> {
        let mut outermost: Vec<Option<usize>> = Vec::with_capacity(self.directives.len());
        for (number, directive) in self.directives.iter().enumerate() {
            let around = directive.parent.and_then(|x| outermost[x]);
            let own = (number != self.region && is_one(directive.kind)).then_some(number);
            outermost.push(around.or(own));
        }
        outermost
    }
}
