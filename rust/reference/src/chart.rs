//! The decoded chart: node, edge and construct records, and the trailer that points back to them.
//! Decoding is total once the trailer has been checked; the records keep their raw bytes, so that
//! each later row of the refusal table can look at them.

use crate::masked::{construct_bytes, filter};

/// One node record. The 2-byte tag is not kept, since nothing reads it.
#[derive(Clone, Copy, Debug, PartialEq, Eq)]
pub struct Node {
    pub kind: u8,
    pub construct: u8,
}

impl Node {
    pub const BYTES: usize = 4;
    pub const PLAIN: u8 = 0;
    pub const BARRIER: u8 = 1;
    pub const BEGIN: u8 = 2;
    pub const END: u8 = 3;
}

/// One edge record.
#[derive(Clone, Copy, Debug, PartialEq, Eq, PartialOrd, Ord)]
pub struct Edge {
    pub from: u8,
    pub to: u8,
}

impl Edge {
    pub const BYTES: usize = 2;
}

/// One construct record.
#[derive(Clone, Copy, Debug, PartialEq, Eq)]
pub struct Construct {
    pub kind: u8,
    pub parent: u8,
    pub name: u16,
    /// Of a masked the number of the thread that goes in; 0 in edition 1, and on other kinds.
    pub filter: u16,
}

impl Construct {
    /// In edition 1; `masked` has edition 2.
    pub const BYTES: usize = 4;
    pub const SINGLE: u8 = 1;
    /// Edition 2's masked.
    pub const MASTER: u8 = 2;
    pub const CRITICAL: u8 = 3;
    pub const DO: u8 = 4;
    pub const ORDERED: u8 = 5;
    pub const SECTIONS: u8 = 6;
    pub const SECTION: u8 = 7;
    /// A region of its own.
    pub const PARALLEL: u8 = 8;
    /// "255 for none": no construct, or no parent.
    pub const NONE: u8 = 255;
}

/// The last 16 bytes of a chart.
#[derive(Clone, Copy, Debug, PartialEq, Eq)]
pub struct Trailer {
    pub edition: u16,
    pub nodes: usize,
    pub edges: usize,
    pub constructs: usize,
    pub distances: [usize; 3],
    pub closing: [u8; 2],
}

impl Trailer {
    pub const BYTES: usize = 16;
    /// The first; `masked` has the second.
    pub const EDITION: u16 = 1;
    pub const CLOSING: [u8; 2] = [0x4F, 0x43];

    /// The trailer of the bytes handed over, or none if there are fewer than 16.
    pub fn read(bytes: &[u8]) -> Option<Trailer> {
        let tail = &bytes[bytes.len().checked_sub(Self::BYTES)?..];
        let field = |i: usize| u16::from_le_bytes([tail[2 * i], tail[2 * i + 1]]);
        Some(Trailer {
            edition: field(0),
            nodes: field(1).into(),
            edges: field(2).into(),
            constructs: field(3).into(),
            distances: [field(4).into(), field(5).into(), field(6).into()],
            closing: [tail[14], tail[15]],
        })
    }

    /// "The length is 4n + 2e + 4c + 16", in edition 2 "with 6c for 4c"; so the distances.
    pub fn length(&self) -> usize {
        Node::BYTES * self.nodes + self.edge_distance()
    }

    /// The distance from the chart's end back to the first edge.
    pub fn edge_distance(&self) -> usize {
        Edge::BYTES * self.edges + self.construct_distance()
    }

    /// The distance from the chart's end back to the first construct.
    pub fn construct_distance(&self) -> usize {
        construct_bytes(self.edition) * self.constructs + Self::BYTES
    }
}

/// A chart as its records, with the nodes where its team starts and finishes.
#[derive(Clone, Debug, PartialEq, Eq)]
pub struct Chart {
    pub edition: u16,
    pub nodes: Vec<Node>,
    pub edges: Vec<Edge>,
    pub constructs: Vec<Construct>,
    pub start: usize,
    pub finish: usize,
}

impl Chart {
    pub const NODE_LIMITS: std::ops::RangeInclusive<usize> = 2..=192;
    pub const EDGE_LIMITS: std::ops::RangeInclusive<usize> = 1..=1024;
    pub const CONSTRUCT_LIMITS: std::ops::RangeInclusive<usize> = 0..=48;
    pub const MOST_BARRIERS: usize = 64;

    /// Decodes a chart whose trailer passed rows 2 to 4. "Node 0 is Start, node n-1 is Finish."
    pub fn decode(bytes: &[u8], trailer: &Trailer) -> Chart {
        let (nodes, rest) = bytes.split_at(Node::BYTES * trailer.nodes);
        let (edges, rest) = rest.split_at(Edge::BYTES * trailer.edges);
        let width = construct_bytes(trailer.edition);
        let constructs = &rest[..width * trailer.constructs];
        Chart {
            edition: trailer.edition,
            nodes: nodes.chunks(Node::BYTES).map(node).collect(),
            edges: edges.chunks(Edge::BYTES).map(edge).collect(),
            constructs: constructs.chunks(width).map(construct).collect(),
            start: 0,
            finish: trailer.nodes - 1,
        }
    }

    pub fn is_barrier(&self, node: usize) -> bool {
        self.nodes[node].kind == Node::BARRIER
    }

    /// "Barriers are numbered from 0 by rising node number": the nodes in that order.
    pub fn barriers(&self) -> Vec<usize> {
        (0..self.nodes.len())
            .filter(|&x| self.is_barrier(x))
            .collect()
    }

    /// The begin node of a construct of an admitted chart.
    pub fn begin_of(&self, construct: usize) -> usize {
        self.node_of(Node::BEGIN, construct)
    }

    /// The end node of a construct of an admitted chart.
    pub fn end_of(&self, construct: usize) -> usize {
        self.node_of(Node::END, construct)
    }

    fn node_of(&self, kind: u8, construct: usize) -> usize {
        self.nodes
            .iter()
            .position(|x| x.kind == kind && usize::from(x.construct) == construct)
            .expect("row 7 gives each construct one begin and one end")
    }

    /// The nodes to which an edge leads from each node.
    pub fn successors(&self) -> Vec<Vec<usize>> {
        let mut successors = vec![Vec::new(); self.nodes.len()];
        for edge in &self.edges {
            successors[usize::from(edge.from)].push(edge.to.into());
        }
        successors
    }
}

fn node(record: &[u8]) -> Node {
    Node {
        kind: record[0],
        construct: record[1],
    }
}

fn edge(record: &[u8]) -> Edge {
    Edge {
        from: record[0],
        to: record[1],
    }
}

fn construct(record: &[u8]) -> Construct {
    Construct {
        kind: record[0],
        parent: record[1],
        name: u16::from_le_bytes([record[2], record[3]]),
        filter: filter(record),
    }
}
