//! One thread walks while the others stand still: a shortest path by the team rules.
//!
//! A begin that the goal is not behind is crossed: a do straight; a single straight, or through it where the
//! thread is the first; a sections by taking all that is left of it. Nobody can keep a thread from crossing,
//! but one inside an ordered keeps others in its do from ordereds. A path that visits no node twice leaves each
//! begin at most once, so that the state before the walk tells what every part of it takes.

use crate::rules::State;
use crate::view::{Role, View};
use bohrali::layout::ConstructKind;
use std::cmp::Reverse;
use std::collections::BinaryHeap;

/// A walk of a thread from a node, in a state that has it there; from a barrier the first step is what the
/// thread chooses at the release.
pub struct Walk<'a> {
    pub view: &'a View<'a>,
    pub state: &'a State,
    pub thread: usize,
    pub from: usize,
    /// Constructs to go into; a section's begin and end count as inside it. None where the goal is outside all.
    pub into: u64,
    /// A node not to be used.
    pub avoid: Option<usize>,
    /// Whether it goes into no critical while another thread is inside one of that name.
    pub locks: bool,
}

/// From a node to another, in so many steps.
#[derive(Clone, Copy)]
struct Hop {
    to: usize,
    steps: u32,
    /// The sections construct of which all that is left is taken before.
    rest: Option<usize>,
}

/// Fewest steps from the walk's first node to each, and by what hop the last of them come.
struct Found {
    steps: Vec<Option<u32>>,
    by: Vec<Option<(usize, Hop)>>,
}

impl Walk<'_> {
    /// Fewest steps to each node.
    pub fn distances(&self) -> Vec<Option<u32>> {
        self.search(None).steps
    }

    /// The nodes stepped to on a shortest path, of one or more steps, to a node.
    pub fn path(&self, goal: usize) -> Option<Vec<usize>> {
        let found = self.search(Some(goal));
        let mut hops = vec![found.by[goal]?];
        while let Some(&(v, _)) = hops.last().filter(|x| x.0 != self.from) {
            hops.push(found.by[v]?);
        }
        let mut nodes = Vec::new();
        for (_, hop) in hops.into_iter().rev() {
            let rest = hop.rest.into_iter().flat_map(|c| self.rest(c));
            nodes.extend(rest.flat_map(|x| self.view.constructs[x].through.iter().copied()));
            // the rest of a sections ends at its end, which may be where the hop leads
            if hop
                .rest
                .is_none_or(|c| self.view.constructs[c].end != hop.to)
            {
                nodes.push(hop.to);
            }
        }
        Some(nodes)
    }

    /// By Dijkstra, up to the goal if there is one. Barriers end a walk, so that only the first node's hops may
    /// be those of a barrier.
    fn search(&self, goal: Option<usize>) -> Found {
        let nodes = self.view.nodes();
        let mut found = Found {
            steps: vec![None; nodes],
            by: vec![None; nodes],
        };
        let mut heap = BinaryHeap::from([Reverse((0, self.from))]);
        let mut first = true;
        while let Some(Reverse((far, v))) = heap.pop() {
            // a hop takes a step or more: no path that is still to be found is shorter
            let is_near = |goal: usize| found.steps[goal].is_some_and(|steps| steps <= far + 1);
            if !first && goal.is_some_and(is_near) {
                break;
            }
            let old = found.steps[v].is_some_and(|steps| steps < far);
            let ended = v == self.from || self.view.role[v] == Role::Barrier;
            if first || !(old || ended) {
                self.hops(v, |hop| {
                    let far = far + hop.steps;
                    let shorter = found.steps[hop.to].is_none_or(|old| far < old);
                    if self.avoid != Some(hop.to) && shorter {
                        found.steps[hop.to] = Some(far);
                        found.by[hop.to] = Some((v, hop));
                        heap.push(Reverse((far, hop.to)));
                    }
                });
            }
            first = false;
        }
        found
    }

    /// Fewest steps from each node to the goal, walks beginning anywhere outside constructs.
    pub fn distances_to(&self, goal: usize) -> Vec<Option<u32>> {
        let nodes = self.view.nodes();
        let mut back = Vec::new();
        for v in 0..nodes {
            self.hops(v, |hop| back.push((hop.to, v, hop.steps)));
        }
        back.sort_unstable();
        let mut steps = vec![None; nodes];
        let mut heap = BinaryHeap::from([Reverse((0, goal))]);
        while let Some(Reverse((far, v))) = heap.pop() {
            let old = steps[v].is_some_and(|steps| steps < far);
            if old || v != goal && self.view.role[v] == Role::Barrier {
                continue;
            }
            let first = back.partition_point(|x| x.0 < v);
            for &(_, w, more) in back[first..].iter().take_while(|x| x.0 == v) {
                if steps[w].is_none_or(|old| far + more < old) {
                    steps[w] = Some(far + more);
                    heap.push(Reverse((far + more, w)));
                }
            }
        }
        steps
    }

    /// The hops from a node.
    fn hops(&self, v: usize, mut each: impl FnMut(Hop)) {
        let mut edges = |rest: Option<usize>| {
            let before = rest.map_or(0, |c| self.rest_steps(c));
            for &to in &self.view.next[v] {
                let steps = before + 1;
                each(Hop { to, steps, rest });
            }
        };
        match self.view.role[v] {
            Role::Begin(c) if self.view.kind(c) == ConstructKind::Sections => {
                self.deal(c, each);
            }
            Role::Begin(c) => match self.enters(c) {
                Some(true) => edges(None),
                Some(false) => each(straight(self.view.constructs[c].end)),
                None => {}
            },
            Role::End(c) if self.view.kind(c) == ConstructKind::Sections && self.began_in(c) => {
                if self.may_take_rest(c) {
                    edges(Some(c));
                }
            }
            _ => edges(None),
        }
    }

    /// At a begin that is no sections': whether the thread goes in or straight to the end, or stays.
    fn enters(&self, c: usize) -> Option<bool> {
        let (view, state, thread) = (self.view, self.state, self.thread);
        let own = &view.constructs[c];
        let wanted = self.into >> c & 1 == 1;
        let enters = match own.kind {
            ConstructKind::Single => state.is_first(thread, c),
            ConstructKind::Master => thread == own.filter,
            ConstructKind::Do => wanted,
            ConstructKind::Ordered => {
                let of_do = own.parent?;
                let free = state.ordered_free(view, thread, of_do, self.instance(of_do));
                return free.then_some(true);
            }
            ConstructKind::Critical => {
                let free = !self.locks || state.is_unlocked(view, thread, own.name);
                return free.then_some(true);
            }
            _ => true,
        };
        (enters || !wanted).then_some(enters)
    }

    /// At a sections' begin: to the section that is wanted; else past the construct, or through all that is left.
    fn deal(&self, c: usize, mut each: impl FnMut(Hop)) {
        let end = self.view.constructs[c].end;
        if self.into >> c & 1 == 1 {
            let fits = self.rest(c).filter(|&x| self.into >> x & 1 == 1);
            fits.for_each(|x| each(straight(self.view.constructs[x].begin)));
        } else if self.rest(c).next().is_none() {
            each(straight(end));
        } else if self.may_take_rest(c) {
            each(Hop {
                to: end,
                steps: self.rest_steps(c),
                rest: Some(c),
            });
        }
    }

    /// Whether the walk begins inside a construct or at its end, so in an instance that is counted already.
    fn began_in(&self, c: usize) -> bool {
        self.view.around[self.from] >> c & 1 == 1 || self.view.role[self.from] == Role::End(c)
    }

    /// The thread's instance of a construct in which the walk visits it.
    fn instance(&self, c: usize) -> u32 {
        self.state.encounters[self.thread][c] + u32::from(!self.began_in(c))
    }

    /// What is left to take of a sections construct.
    fn rest(&self, c: usize) -> impl Iterator<Item = usize> + '_ {
        self.state.untaken(self.view, c, self.instance(c))
    }

    fn rest_steps(&self, c: usize) -> u32 {
        let lengths = self.rest(c).map(|x| self.view.constructs[x].through.len());
        lengths.sum::<usize>() as u32
    }

    /// Whether no lock is in the way of what is left.
    fn may_take_rest(&self, c: usize) -> bool {
        let locked = |&v: &usize| match self.view.role[v] {
            Role::Begin(x) if self.view.kind(x) == ConstructKind::Critical => {
                let name = self.view.constructs[x].name;
                !self.state.is_unlocked(self.view, self.thread, name)
            }
            _ => false,
        };
        let mut left = self.rest(c);
        !self.locks || left.all(|x| !self.view.constructs[x].through.iter().any(locked))
    }
}

/// One step.
fn straight(to: usize) -> Hop {
    Hop {
        to,
        steps: 1,
        rest: None,
    }
}
