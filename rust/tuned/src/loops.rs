//! Marking by loops, for charts that sweeps do not close soon. Nodes on one loop without barriers (a
//! strongly connected component) have the same masks; then each direction is one sweep, whatever the
//! chart. The search is Pearce's, with the path of the depth-first search kept by hand.

use crate::bits::Masks;
use crate::by_node::{ByNode, FoundAhead};
use crate::edges::Edge;
use crate::sweeps::sweep_long;
use crate::tables::{Tables, MOST_EDGES};

/// The loops between barriers.
pub struct Loops {
    nodes: usize,
    /// By node: a barrier's number, or, counted down from 255, the loop that it is on. Both are together
    /// fewer than 256.
    slot: [u8; 256],
    /// The edges out of loops, between slots, those of a loop behind those that lead to it; from `first`.
    edges: [Edge; MOST_EDGES],
    first: usize,
}

impl Loops {
    pub fn of(t: &Tables, barriers: &[u8]) -> Loops {
        let table = FoundAhead::of(t);
        let mut search = Search::new(&table, barriers);
        for node in 0..t.nodes.len() as u8 {
            search.from(node);
        }
        for (number, &barrier) in barriers.iter().enumerate() {
            search.slot[usize::from(barrier)] = number as u8;
        }
        let mut loops = Loops {
            nodes: t.nodes.len(),
            slot: search.slot,
            edges: [0; MOST_EDGES],
            first: MOST_EDGES,
        };
        for &node in &search.sequence[..search.count] {
            for &[from, to] in table.edges(node) {
                let slots = [from, to].map(|x| search.slot[usize::from(x)]);
                loops.edges[(loops.first - 1) & (MOST_EDGES - 1)] = Edge::from_le_bytes(slots);
                loops.first -= usize::from(slots[0] != slots[1]);
            }
        }
        loops
    }

    /// Carries masks along the edges, or against them.
    pub fn close<const BACK: bool>(&self, masks: &mut Masks) {
        let mut by_slot = [0; 256];
        for (&slot, mask) in self.slot.iter().zip(masks.iter()) {
            by_slot[usize::from(slot)] |= mask;
        }
        sweep_long::<BACK>(&self.edges[self.first..], &mut by_slot);
        for (mask, &slot) in masks[..self.nodes].iter_mut().zip(&self.slot) {
            *mask = by_slot[usize::from(slot)];
        }
    }
}

/// While the search runs, a node's slot is 0 before it is entered, then the lowest index, from 1 up, of
/// the nodes known to be on a loop with it. Indices in use and slots given are together no more than the
/// nodes, so that they are told apart.
struct Search<'t, 'a> {
    table: &'t FoundAhead<'a>,
    slot: [u8; 256],
    /// The nodes that are no barriers, each behind those it leads to outside its loop.
    sequence: [u8; 256],
    count: usize,
    /// By node how many of its edges have been looked at.
    looked_at: [u8; 256],
    /// The index that each node got when it was entered.
    entered: [u8; 256],
    path: [u8; 256],
    depth: usize,
    /// Nodes that have been left and are on a loop with a node on the path.
    waiting: [u8; 256],
    waiting_count: usize,
    next_index: u8,
    next_slot: u8,
}

impl<'t, 'a> Search<'t, 'a> {
    fn new(table: &'t FoundAhead<'a>, barriers: &[u8]) -> Search<'t, 'a> {
        let mut slot = [0; 256];
        // No index is as high, so that a barrier is on no loop.
        for &barrier in barriers {
            slot[usize::from(barrier)] = 255;
        }
        Search {
            table,
            slot,
            sequence: [0; 256],
            count: 0,
            looked_at: [0; 256],
            entered: [0; 256],
            path: [0; 256],
            depth: 0,
            waiting: [0; 256],
            waiting_count: 0,
            next_index: 1,
            next_slot: 255,
        }
    }

    /// Searches from a node, unless it has been entered before.
    fn from(&mut self, node: u8) {
        if self.slot[usize::from(node)] != 0 {
            return;
        }
        self.enter(node);
        while self.depth > 0 {
            let node = self.path[(self.depth - 1) & 255];
            match self.not_entered(node) {
                Some(next) => self.enter(next),
                None => self.leave(node),
            }
        }
    }

    fn enter(&mut self, node: u8) {
        self.slot[usize::from(node)] = self.next_index;
        self.entered[usize::from(node)] = self.next_index;
        self.path[self.depth & 255] = node;
        self.depth += 1;
        self.next_index += 1;
    }

    /// Looks at a node's edges up to one to a node that has not been entered. That edge is looked at
    /// again afterwards, for what has been found from there.
    fn not_entered(&mut self, node: u8) -> Option<u8> {
        let own = usize::from(node);
        let edges = self.table.edges(node);
        let mut lowest = self.slot[own];
        let mut found = None;
        for &[_, to] in &edges[usize::from(self.looked_at[own])..] {
            let slot = self.slot[usize::from(to)];
            if slot == 0 {
                found = Some(to);
                break;
            }
            lowest = lowest.min(slot);
            self.looked_at[own] += 1;
        }
        self.slot[own] = lowest;
        found
    }

    /// Leaves a node; if no node before it on the path is on a loop with it, its loop is complete.
    fn leave(&mut self, node: u8) {
        let index = self.entered[usize::from(node)];
        self.depth -= 1;
        if self.slot[usize::from(node)] != index {
            self.waiting[self.waiting_count & 255] = node;
            self.waiting_count += 1;
            return;
        }
        while self.waiting_count > 0 {
            let member = self.waiting[(self.waiting_count - 1) & 255];
            if self.slot[usize::from(member)] < index {
                break;
            }
            self.waiting_count -= 1;
            self.settle(member);
        }
        self.settle(node);
        self.next_slot -= 1;
    }

    fn settle(&mut self, node: u8) {
        self.slot[usize::from(node)] = self.next_slot;
        self.sequence[self.count & 255] = node;
        self.count += 1;
        self.next_index -= 1;
    }
}
