//! Sections (02, Note 1): what may lie in a sections construct, the edges refused there, and the
//! section that a node is inside for answer 5.

use crate::chart::{Chart, Construct, Node};

impl Chart {
    /// "Only section begins and ends lie directly in a sections": a plain node there is wrong. Begins
    /// and ends are asked by their constructs, and a barrier lies in none but a parallel.
    pub fn is_stray(&self, node: usize) -> bool {
        let Node { kind, construct } = self.nodes[node];
        kind == Node::PLAIN && self.is_kind(construct, Construct::SECTIONS)
    }

    /// Whether a construct is a section whose parent is no sections, or another one, a parallel too,
    /// directly in a sections.
    pub fn is_misplaced(&self, construct: usize) -> bool {
        let own = self.constructs[construct];
        self.is_kind(own.parent, Construct::SECTIONS) != (own.kind == Construct::SECTION)
    }

    /// "No edge leads from a section's end to a section's begin", its own or another's.
    pub fn joins_sections(&self, from: usize, to: usize) -> bool {
        let frames_section = |node: usize, kind: u8| {
            let node = self.nodes[node];
            node.kind == kind && self.is_kind(node.construct, Construct::SECTION)
        };
        frames_section(from, Node::END) && frames_section(to, Node::BEGIN)
    }

    /// The sections that a node is inside, "its begin and end counted as inside". They are one at
    /// most, since only a sections may be above a section.
    pub fn in_section(&self, node: usize) -> Vec<usize> {
        let Node { kind, construct } = self.nodes[node];
        let innermost = match kind {
            Node::BEGIN | Node::END => construct,
            _ => self.lies_in(node),
        };
        let is_section = |&c: &usize| self.constructs[c].kind == Construct::SECTION;
        let around = self.outward(innermost);
        around.into_iter().filter(is_section).collect()
    }

    /// The section constructs of a sections construct, by rising number.
    pub fn sections_of(&self, sections: usize) -> Vec<usize> {
        let is_own = |&c: &usize| {
            let Construct { kind, parent, .. } = self.constructs[c];
            kind == Construct::SECTION && usize::from(parent) == sections
        };
        (0..self.constructs.len()).filter(is_own).collect()
    }

    /// Whether a construct number, which may be 255 for none, names a construct of a kind.
    pub(crate) fn is_kind(&self, construct: u8, kind: u8) -> bool {
        let named = self.constructs.get(usize::from(construct));
        named.is_some_and(|x| x.kind == kind)
    }
}
