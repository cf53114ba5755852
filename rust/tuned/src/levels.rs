//! The fewest edges on a barrier-free path from any start, by sweeps or by one search.

use crate::by_node::{ByNode, FoundAhead};
use crate::edges::{ends_of, Edge, Edges};
use crate::nodes::Nodes;
use crate::sweeps::MOST;
use crate::tables::Tables;

/// The fewest edges to each node, `FAR` while there is no path.
pub type Levels = [u8; 256];
pub const FAR: u8 = 254;
pub const AT_BARRIER: u8 = 255;

/// With more falling edges than this, half as many as rising ones, and so many times as many edges between nodes that
/// are no barriers as out of barriers, a search is faster; else sweeps, which find low levels soon.
const FALLING: usize = 24;
const FAR_OFF: usize = 4;

/// Whether levels take a search.
#[inline(always)]
pub fn are_far(edges: &Edges) -> bool {
    let (up, down, out) = (edges.up().len(), edges.down().len(), edges.out().len());
    (down > FALLING) & (2 * down > up) & (up + down > FAR_OFF * out)
}

/// Fills the levels of nodes that are no barriers.
#[inline(always)]
pub fn fill(t: &Tables, nodes: &Nodes, edges: &Edges, levels: &mut Levels) {
    if are_far(edges) {
        search(t, nodes, levels);
        return;
    }
    let (up, down) = (edges.up(), edges.down());
    sow(edges.out(), levels);
    sweep(up, levels);
    let mut met = 0;
    while sweep(down, levels) && sweep(up, levels) {
        met += up.len() + down.len();
        if met > MOST {
            levels.fill(FAR);
            search(t, nodes, levels);
            return;
        }
    }
}

/// Those of nodes to which an edge leads from a barrier.
#[inline(always)]
pub fn sow(out: &[Edge], levels: &mut Levels) {
    for &edge in out {
        levels[usize::from(ends_of(edge).1)] = 1;
    }
}

/// Sweeps a list; whether a level has changed.
#[inline(always)]
fn sweep(list: &[Edge], levels: &mut Levels) -> bool {
    let mut new = 0;
    for &edge in list {
        let (from, to) = ends_of(edge);
        let old = levels[usize::from(to)];
        let level = (levels[usize::from(from)] + 1).min(old);
        levels[usize::from(to)] = level;
        new |= level ^ old;
    }
    new != 0
}

/// A queue of nodes to go on from, each once.
struct Queue {
    nodes: [u8; 256],
    tail: usize,
}

impl Queue {
    /// Gives a node its level and queues it, if `own` and it has none yet; no branch.
    #[inline(always)]
    fn visit(&mut self, levels: &mut Levels, node: u8, level: u8, own: bool) {
        let old = levels[usize::from(node)];
        self.nodes[self.tail & 255] = node;
        self.tail += usize::from((old == FAR) & own);
        levels[usize::from(node)] = if own { old.min(level) } else { old };
    }
}

/// The search as the calls make it: with all first edges found ahead.
#[inline(always)]
pub fn search(t: &Tables, nodes: &Nodes, levels: &mut Levels) {
    let by_node = FoundAhead::of(t);
    search_by(&by_node, t, &nodes.barrier[..nodes.barriers], levels);
}

/// One search from all barriers, breadth first. Barriers get level 0.
#[inline(always)]
pub fn search_by<'a>(by_node: &impl ByNode<'a>, t: &Tables, barriers: &[u8], levels: &mut Levels) {
    let mut queue = Queue {
        nodes: [0; 256],
        tail: barriers.len(),
    };
    for (place, &barrier) in queue.nodes.iter_mut().zip(barriers) {
        *place = barrier;
        levels[usize::from(barrier)] = 0;
    }
    let dense = t.edges.len() > 3 * t.nodes.len();
    let mut head = 0;
    while head < queue.tail {
        let node = queue.nodes[head & 255];
        let level = levels[usize::from(node)] + 1;
        let (own, count) = by_node.from(node);
        match own.first_chunk::<8>() {
            // Most nodes have no more than eight: no branch on how many.
            Some(eight) if dense => {
                for (i, &[_, to]) in eight.iter().enumerate() {
                    queue.visit(levels, to, level, i < count);
                }
                for &[_, to] in own[..count].iter().skip(8) {
                    queue.visit(levels, to, level, true);
                }
            }
            _ => {
                for &[_, to] in &own[..count] {
                    queue.visit(levels, to, level, true);
                }
            }
        }
        head += 1;
    }
}
