//! The edge table by node: it rises, so that a node's edges are next to each other. Where they begin is
//! found for all nodes ahead, or looked up for one.

use crate::tables::Tables;

/// Tells where each node's edges begin.
pub trait ByNode<'a> {
    /// The table from a node's edges on, and how many they are.
    fn from(&self, node: u8) -> (&'a [[u8; 2]], usize);

    /// A node's edges.
    #[inline(always)]
    fn edges(&self, node: u8) -> &'a [[u8; 2]] {
        let (from, count) = self.from(node);
        &from[..count]
    }
}

/// The places of all nodes, found in one pass.
pub struct FoundAhead<'a> {
    edges: &'a [[u8; 2]],
    /// By node the place behind the edges of the nodes before it.
    behind: [u16; 257],
}

impl<'a> FoundAhead<'a> {
    #[inline(always)]
    pub fn of(t: &Tables<'a>) -> FoundAhead<'a> {
        let mut behind = [0u16; 257];
        for (place, &[from, _]) in t.edges.iter().enumerate() {
            behind[usize::from(from) + 1] = place as u16 + 1;
        }
        let mut most = 0;
        for place in &mut behind[..=t.nodes.len()] {
            most = most.max(*place);
            *place = most;
        }
        FoundAhead {
            edges: t.edges,
            behind,
        }
    }
}

impl<'a> ByNode<'a> for FoundAhead<'a> {
    #[inline(always)]
    fn from(&self, node: u8) -> (&'a [[u8; 2]], usize) {
        let first = usize::from(self.behind[usize::from(node)]);
        let count = usize::from(self.behind[usize::from(node) + 1]) - first;
        (&self.edges[first..], count)
    }
}

/// The table alone, in which a node's first edge is looked up by halves and the others are counted along
/// it.
pub struct LookedUp<'a> {
    pub edges: &'a [[u8; 2]],
}

impl<'a> ByNode<'a> for LookedUp<'a> {
    #[inline(always)]
    fn from(&self, node: u8) -> (&'a [[u8; 2]], usize) {
        let first = self.edges.partition_point(|&[from, _]| from < node);
        let own = &self.edges[first..];
        let count = own.iter().take_while(|&&[from, _]| from == node).count();
        (own, count)
    }
}
