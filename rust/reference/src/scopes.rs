//! What lies in what: the constructs around a node, the scope on each side of an edge (01's
//! "side"), and the table of what may be nested in what.

use crate::chart::{Chart, Construct, Node};

/// By kind, the kinds that may enclose it at any depth: row = kind, column = kind above, both in
/// the order single, master, critical, do, ordered, sections, section; the last row is the parallel's,
/// which has no column: above it is another region.
pub const MAY_ENCLOSE: [[bool; 7]; 8] = [
    [false, false, false, false, false, false, false],
    [false, false, true, false, false, false, false],
    [true, true, true, true, true, true, true],
    [false, false, false, false, false, false, false],
    [false, false, false, true, false, false, false],
    [false, false, false, false, false, false, false],
    [false, false, false, false, false, true, false],
    [true, true, true, true, true, true, true],
];

impl Chart {
    /// The construct a node lies in: "a construct's begin and end lie in its parent, not in it".
    pub fn lies_in(&self, node: usize) -> u8 {
        let Node { kind, construct } = self.nodes[node];
        match kind {
            Node::BEGIN | Node::END => self.constructs[usize::from(construct)].parent,
            _ => construct,
        }
    }

    /// The scope an edge has where it leaves: "leaving a begin, the side is the construct opened".
    pub fn leaving_scope(&self, node: usize) -> u8 {
        match self.nodes[node].kind {
            Node::BEGIN => self.nodes[node].construct,
            _ => self.lies_in(node),
        }
    }

    /// The scope an edge has where it arrives: "arriving at an end, it is the construct closed".
    pub fn arriving_scope(&self, node: usize) -> u8 {
        match self.nodes[node].kind {
            Node::END => self.nodes[node].construct,
            _ => self.lies_in(node),
        }
    }

    /// A scope and all constructs around it, innermost first. Parents must be lower (row 6).
    pub fn outward(&self, scope: u8) -> Vec<usize> {
        let mut chain = Vec::new();
        let mut next = scope;
        while next != Construct::NONE {
            chain.push(usize::from(next));
            next = self.constructs[usize::from(next)].parent;
        }
        chain
    }

    /// "A node is inside every construct around it, at any depth."
    pub fn enclosing(&self, node: usize) -> Vec<usize> {
        self.outward(self.lies_in(node))
    }

    /// "Nesting": whether a construct breaks the table, an ordered has no do as its parent, or a
    /// critical is below one of the same name, all within its region.
    pub fn breaks_nesting(&self, construct: usize) -> bool {
        let own = self.constructs[construct];
        let orphan = own.kind == Construct::ORDERED
            && (own.parent == Construct::NONE
                || self.constructs[usize::from(own.parent)].kind != Construct::DO);
        orphan
            || self
                .above_in_region(construct)
                .iter()
                .any(|&above| !may_enclose(&self.constructs[above], &own))
    }
}

/// Whether one construct may be anywhere above another of its region.
pub fn may_enclose(above: &Construct, below: &Construct) -> bool {
    let same_critical = above.kind == Construct::CRITICAL
        && below.kind == Construct::CRITICAL
        && above.name == below.name;
    MAY_ENCLOSE[usize::from(below.kind) - 1][usize::from(above.kind) - 1] && !same_critical
}
