//! Fewer nodes with the same answers: nodes without code go, straight lines become one node, and, where the
//! limits ask for it, plain nodes that no rule tells apart do.

use crate::flow::NodeKind;
use crate::graph::{Graph, Node};
use crate::program::Target;
use crate::set::Set;
use crate::shaping::Shape;
use region::ConstructKind;
use std::collections::HashMap;

impl Shape {
    /// Nodes without code go where that takes no more edges. Directly in a sections a chart has no plain
    /// nodes: all of them go.
    pub fn contract(&mut self) {
        let mut previous = self.graph.previous();
        for number in 0..self.graph.nodes.len() {
            let Some(node) = self.graph.nodes[number].as_ref() else {
                continue;
            };
            let in_sections = |x: usize| self.constructs.kinds[x] == Some(ConstructKind::Sections);
            let is_forced = self.scopes[number].is_some_and(in_sections);
            let calls_known = node.calls.iter().any(|x| matches!(x, Target::Known(_)));
            let is_empty = node.lines.is_empty() && !calls_known;
            if node.kind != NodeKind::Plain || !(is_forced || is_empty) {
                continue;
            }
            let before = previous[number].without(number);
            let after = self.graph.next[number].without(number);
            if !is_forced && before.len() * after.len() > before.len() + after.len() {
                continue;
            }
            for from in before.iter() {
                self.graph.next[from].remove(number);
                self.graph.next[from].extend(&after);
            }
            for to in after.iter() {
                previous[to].remove(number);
                previous[to].extend(&before);
            }
            let why = "directly in a sections, where a chart has no code";
            self.graph.drop_node(number, is_forced.then_some(why));
        }
    }

    /// A plain node that leads to one plain node alone, which nothing else leads to, becomes one with it.
    pub fn line_up(&mut self) {
        let mut previous = self.graph.previous();
        for number in 0..self.graph.nodes.len() {
            if !self.graph.is_plain(number) {
                continue;
            }
            while let Some(to) = self.graph.next[number].only() {
                let is_line = to != number
                    && self.graph.is_plain(to)
                    && self.scopes[to] == self.scopes[number]
                    && previous[to].len() == 1;
                if !is_line {
                    break;
                }
                let last = self.graph.nodes[to].as_ref().and_then(|x| x.last);
                absorb(&mut self.graph, number, to);
                if let (Some(node), Some(_)) = (&mut self.graph.nodes[number], last) {
                    node.last = last;
                }
                self.graph.next[number] = std::mem::take(&mut self.graph.next[to]);
                for after in self.graph.next[number].iter() {
                    previous[after].remove(to);
                    previous[after].insert(number);
                }
            }
        }
    }

    /// Plain nodes of one construct become one where the same barriers and construct ends lead to them
    /// without a barrier between, and they lead to the same barriers so. No answer changes: each path
    /// through the one node has, from its last barrier or end and to its next barrier, a path of the old
    /// nodes beside it; so starts, ends and what returns stay.
    pub fn merge(&mut self) {
        let keys = self.surroundings();
        let mut first: HashMap<_, usize> = HashMap::new();
        let mut into: Vec<usize> = (0..self.graph.nodes.len()).collect();
        for (number, key) in keys.into_iter().enumerate() {
            if self.graph.is_plain(number) {
                into[number] = *first.entry((self.scopes[number], key)).or_insert(number);
            }
        }
        let mut next = vec![Set::default(); into.len()];
        for (from, to) in self.graph.edges() {
            if into[from] != into[to] || !self.graph.is_plain(from) {
                next[into[from]].insert(into[to]);
            }
        }
        for number in (0..into.len()).filter(|&x| into[x] != x) {
            absorb(&mut self.graph, into[number], number);
        }
        self.graph.next = next;
    }

    /// For each node the barriers and ends of constructs that reach it past no barrier, and the barriers
    /// that it reaches so, as bits.
    fn surroundings(&self) -> Vec<[Vec<u64>; 2]> {
        let previous = self.graph.previous();
        let sources: Vec<(usize, &Node)> = self
            .graph
            .live()
            .filter(|x| matches!(x.1.kind, NodeKind::Barrier | NodeKind::Close))
            .collect();
        let empty = vec![0; sources.len().div_ceil(64)];
        let mut found = vec![[empty.clone(), empty]; self.graph.nodes.len()];
        for (bit, &(source, node)) in sources.iter().enumerate() {
            let (word, mask) = (bit / 64, 1 << (bit % 64));
            for to in self.freely_reached(source, &self.graph.next) {
                found[to][0][word] |= mask;
            }
            if node.kind == NodeKind::Barrier {
                for from in self.freely_reached(source, &previous) {
                    found[from][1][word] |= mask;
                }
            }
        }
        found
    }

    /// The nodes at the other ends of barrier-free paths.
    fn freely_reached(&self, from: usize, edges: &[Set<usize>]) -> Vec<usize> {
        let mut seen = vec![false; self.graph.nodes.len()];
        let mut reached = Vec::new();
        let mut work = vec![from];
        while let Some(node) = work.pop() {
            for to in edges[node].iter() {
                if !std::mem::replace(&mut seen[to], true) {
                    reached.push(to);
                    if self.graph.kind(to) != Some(NodeKind::Barrier) {
                        work.push(to);
                    }
                }
            }
        }
        reached
    }
}

/// One node takes over the lines of another, which goes.
fn absorb(graph: &mut Graph, into: usize, gone: usize) {
    let Some(gone) = graph.nodes[gone].take() else {
        return;
    };
    if let Some(node) = &mut graph.nodes[into] {
        node.lines.extend(&gone.lines);
        node.via.extend(&gone.via);
        node.calls.extend(&gone.calls);
        node.records.extend(&gone.records);
        node.is_passed &= gone.is_passed;
    }
}
