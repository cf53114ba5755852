//! What a step reads: the chart as the outermost team runs over it, taken apart once for a trace.

use crate::bits::bits;
use crate::constructs::{at, DO, MASTER, ORDERED, PARALLEL, SECTION, SECTIONS, SINGLE};
use crate::marks::Read;
use crate::tables::{Records, MOST_NODES, NONE};

/// How a thread leaves a node. What no rule speaks of, as the end of a single, is left along an edge.
#[derive(Clone, Copy, PartialEq, Eq)]
pub enum Role {
    Plain,
    Barrier,
    /// The begin of a critical or a section.
    Begin,
    Single,
    Masked,
    Do,
    Ordered,
    Sections,
    DoEnd,
    SectionsEnd,
}

/// By node, or by construct where there are 64 entries.
pub struct Steps {
    leads: [[u64; 4]; 256],
    pub role: [Role; 256],
    /// The construct whose begin or end it is.
    pub construct: [u8; 256],
    /// The do whose ordered is around it.
    pub order: [u8; 256],
    /// The section that it begins, as a set.
    pub section: [u64; 256],
    pub begin: [u8; 64],
    pub end: [u8; 64],
    pub parent: [u8; 64],
    pub filter: [u16; 64],
    /// The sections of a sections construct.
    pub parts: [u64; 64],
    pub finish: u8,
}

impl Steps {
    #[inline(always)]
    pub fn of(read: &Read) -> Steps {
        let mut steps = Steps {
            leads: [[0; 4]; 256],
            role: [Role::Plain; 256],
            construct: [0; 256],
            order: [NONE; 256],
            section: [0; 256],
            begin: read.nodes.begin,
            end: read.nodes.end,
            parent: read.constructs.parent,
            filter: [0; 64],
            parts: [0; 64],
            finish: (read.tables.nodes.len() - 1) as u8,
        };
        for &[from, to] in read.tables.edges {
            steps.leads[usize::from(from)][usize::from(to >> 6)] |= 1 << (to & 63);
        }
        for &barrier in &read.nodes.barrier[..read.nodes.barriers] {
            steps.role[usize::from(barrier)] = Role::Barrier;
        }
        let own = outermost(&read.tables.constructs, read.constructs.count);
        for construct in bits(own) {
            steps.place(&read.tables.constructs, construct);
        }
        steps.find_orders(read, own);
        steps
    }

    /// Whether an edge leads from a node to another.
    #[inline(always)]
    pub fn leads(&self, from: u8, to: u8) -> bool {
        self.leads[usize::from(from)][usize::from(to >> 6)] >> (to & 63) & 1 == 1
    }

    /// What a construct makes of its begin and end.
    #[inline(always)]
    fn place(&mut self, records: &Records, construct: usize) {
        let kind = records.kind_of(construct as u8);
        let (begin, end) = match kind.unwrap_or(0) {
            SINGLE => (Role::Single, Role::Plain),
            MASTER => (Role::Masked, Role::Plain),
            DO => (Role::Do, Role::DoEnd),
            ORDERED => (Role::Ordered, Role::Plain),
            SECTIONS => (Role::Sections, Role::SectionsEnd),
            _ => (Role::Begin, Role::Plain),
        };
        let first = usize::from(self.begin[construct]);
        let last = usize::from(self.end[construct]);
        (self.role[first], self.role[last]) = (begin, end);
        self.construct[first] = construct as u8;
        self.construct[last] = construct as u8;
        self.filter[construct] = records.filter(construct);
        if kind == Some(SECTION) {
            self.parts[at(self.parent[construct])] |= 1 << construct;
            self.section[first] = 1 << construct;
        }
    }

    /// No ordered is in another, so that a node has at most one around it.
    #[inline(always)]
    fn find_orders(&mut self, read: &Read, own: u64) {
        let mut inside = [NONE; 64];
        for construct in 0..read.constructs.count {
            let parent = self.parent[construct & 63];
            let kind = read.tables.constructs.kind_of(construct as u8);
            let ordered = kind == Some(ORDERED) && own >> construct & 1 == 1;
            inside[construct & 63] = if ordered { parent } else { inside[at(parent)] };
        }
        let nodes = 0..read.tables.nodes.len().min(MOST_NODES);
        let lying = read.nodes.lying(nodes, read.constructs);
        for (order, scope) in self.order.iter_mut().zip(lying) {
            *order = inside[at(scope)];
        }
    }
}

/// The constructs that are no parallel and in none. Parents are lower.
#[inline(always)]
fn outermost(records: &Records, count: usize) -> u64 {
    let mut own = 0u64;
    for construct in 0..count {
        if let Some([kind, parent, ..]) = records.record(construct) {
            let outer = parent == NONE || own >> at(parent) & 1 == 1;
            own |= u64::from(kind != PARALLEL && outer) << construct;
        }
    }
    own
}
