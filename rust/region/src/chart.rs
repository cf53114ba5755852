//! A chart as its records, to and from its bytes, with what include/bohrali.h calls inside. The
//! records may hold any numbers: one that names nothing has no begin, no end and no parent.

pub use bohrali::layout::{ConstructKind, NodeKind};
use bohrali::layout::{
    BYTES_CONSTRUCT, BYTES_CONSTRUCT_2, BYTES_EDGE, BYTES_NODE, BYTES_TRAILER, CONSTRUCT_NONE,
    TRAILER_CLOSING, TRAILER_EDITION, TRAILER_EDITION_2,
};
use bohrali::limits::{LEAST_EDGES, LEAST_NODES, MOST_CONSTRUCTS, MOST_EDGES, MOST_NODES};
use bohrali::Region;
use std::iter;

/// All kinds of nodes; each stands at its number.
pub const NODE_KINDS: [NodeKind; 4] = [
    NodeKind::Plain,
    NodeKind::Barrier,
    NodeKind::Begin,
    NodeKind::End,
];

/// All kinds of constructs; each stands one place before its number.
pub const CONSTRUCT_KINDS: [ConstructKind; 8] = [
    ConstructKind::Single,
    ConstructKind::Master,
    ConstructKind::Critical,
    ConstructKind::Do,
    ConstructKind::Ordered,
    ConstructKind::Sections,
    ConstructKind::Section,
    ConstructKind::Parallel,
];

#[derive(Clone, Copy, Debug, PartialEq, Eq)]
pub struct Node {
    pub kind: NodeKind,
    /// Of a plain node the innermost construct around it, of a begin or an end its own construct, of a
    /// barrier its region.
    pub construct: Option<u8>,
    pub tag: u16,
}

#[derive(Clone, Copy, Debug, PartialEq, Eq)]
pub struct Construct {
    pub kind: ConstructKind,
    pub parent: Option<u8>,
    /// Of a critical the number of its name, 0 if unnamed.
    pub name: u16,
    /// Of a master the number of the thread that goes in.
    pub filter: u16,
}

#[derive(Clone, Debug, Default, PartialEq, Eq)]
pub struct Chart {
    pub nodes: Vec<Node>,
    pub edges: Vec<(u8, u8)>,
    pub constructs: Vec<Construct>,
}

impl Chart {
    /// The chart of bytes that are laid out as one, of either edition; whether it is admitted is for
    /// `bohrali::admit` to say.
    pub fn decode(bytes: &[u8]) -> Option<Chart> {
        let [nodes, edges, constructs, width] = counts(bytes)?;
        let (node_bytes, rest) = bytes.split_at_checked(BYTES_NODE * nodes)?;
        let (edge_bytes, rest) = rest.split_at_checked(BYTES_EDGE * edges)?;
        let construct_bytes = rest.get(..width * constructs)?;
        Some(Chart {
            nodes: node_bytes
                .chunks(BYTES_NODE)
                .map(node)
                .collect::<Option<_>>()?,
            edges: edge_bytes
                .chunks(BYTES_EDGE)
                .map(|x| (x[0], x[1]))
                .collect(),
            constructs: construct_bytes
                .chunks(width)
                .map(construct)
                .collect::<Option<_>>()?,
        })
    }

    /// The bytes of the chart, in edition 2. Edges are written in the order that they have here.
    pub fn encode(&self) -> Vec<u8> {
        let to_constructs = BYTES_CONSTRUCT_2 * self.constructs.len() + BYTES_TRAILER;
        let to_edges = BYTES_EDGE * self.edges.len() + to_constructs;
        let to_nodes = BYTES_NODE * self.nodes.len() + to_edges;
        let mut bytes = Vec::with_capacity(to_nodes);
        for node in &self.nodes {
            bytes.extend([node.kind as u8, number(node.construct)]);
            bytes.extend(node.tag.to_le_bytes());
        }
        for &(from, to) in &self.edges {
            bytes.extend([from, to]);
        }
        for construct in &self.constructs {
            bytes.extend([construct.kind as u8, number(construct.parent)]);
            bytes.extend(construct.name.to_le_bytes());
            bytes.extend(construct.filter.to_le_bytes());
        }
        let (nodes, edges) = (self.nodes.len(), self.edges.len());
        bytes.extend(TRAILER_EDITION_2.to_le_bytes());
        let counts = [nodes, edges, self.constructs.len()];
        for field in counts
            .into_iter()
            .chain([to_nodes, to_edges, to_constructs])
        {
            // A count that no field can hold is over the limits, and so is what stands in its place.
            bytes.extend(u16::try_from(field).unwrap_or(u16::MAX).to_le_bytes());
        }
        bytes.extend(TRAILER_CLOSING.to_le_bytes());
        bytes
    }

    pub fn node(&self, node: u8) -> Option<&Node> {
        self.nodes.get(usize::from(node))
    }

    pub fn construct(&self, construct: u8) -> Option<&Construct> {
        self.constructs.get(usize::from(construct))
    }

    /// The node that opens a construct.
    pub fn begin(&self, construct: u8) -> Option<u8> {
        self.framing(NodeKind::Begin, construct)
    }

    /// The node that closes a construct.
    pub fn end(&self, construct: u8) -> Option<u8> {
        self.framing(NodeKind::End, construct)
    }

    fn framing(&self, kind: NodeKind, construct: u8) -> Option<u8> {
        let frames = |x: &Node| x.kind == kind && x.construct == Some(construct);
        u8::try_from(self.nodes.iter().position(frames)?).ok()
    }

    /// The construct that a node lies in: of a begin or an end the one around its own.
    pub fn scope(&self, node: u8) -> Option<u8> {
        let node = self.node(node)?;
        match node.kind {
            NodeKind::Begin | NodeKind::End => self.construct(node.construct?)?.parent,
            NodeKind::Plain | NodeKind::Barrier => node.construct,
        }
    }

    /// The construct in which an edge leaves a node: of a begin the one that it opens.
    pub fn leaving(&self, node: u8) -> Option<u8> {
        self.facing(node, NodeKind::Begin)
    }

    /// The construct in which an edge arrives at a node: of an end the one that it closes.
    pub fn arriving(&self, node: u8) -> Option<u8> {
        self.facing(node, NodeKind::End)
    }

    fn facing(&self, node: u8, kind: NodeKind) -> Option<u8> {
        match self.node(node) {
            Some(own) if own.kind == kind => own.construct,
            _ => self.scope(node),
        }
    }

    /// The constructs around one, from its parent upward.
    pub fn enclosing(&self, construct: u8) -> impl Iterator<Item = u8> + '_ {
        self.upward(self.construct(construct).and_then(|x| x.parent))
    }

    /// The constructs that a node is inside, innermost first.
    pub fn around(&self, node: u8) -> impl Iterator<Item = u8> + '_ {
        self.upward(self.scope(node))
    }

    /// A construct and those above it; parents that go round in a ring are met once.
    fn upward(&self, first: Option<u8>) -> impl Iterator<Item = u8> + '_ {
        let known = first.filter(|&x| self.construct(x).is_some());
        let parent = |&x: &u8| {
            self.construct(x)?
                .parent
                .filter(|&y| self.construct(y).is_some())
        };
        iter::successors(known, parent).take(self.constructs.len())
    }

    /// Whether a node is inside a construct, at any depth.
    pub fn inside(&self, node: u8, construct: u8) -> bool {
        self.around(node).any(|x| x == construct)
    }

    pub fn successors(&self, node: u8) -> impl Iterator<Item = u8> + '_ {
        self.edges
            .iter()
            .filter(move |x| x.0 == node)
            .map(|&(_, to)| to)
    }

    /// The numbers of the constructs of a kind, rising.
    pub fn constructs_of(&self, kind: ConstructKind) -> impl Iterator<Item = u8> + '_ {
        let numbered = (0u8..=u8::MAX).zip(&self.constructs);
        numbered
            .filter(move |(_, x)| x.kind == kind)
            .map(|(c, _)| c)
    }

    /// The outermost region and all others, by the numbers of their parallels.
    pub fn regions(&self) -> impl Iterator<Item = Region> + '_ {
        let inner = self.constructs_of(ConstructKind::Parallel);
        iter::once(Region::Outermost).chain(inner.map(|x| Region::Parallel(x.into())))
    }

    /// The barriers of a region by rising number, its Start and Finish among them: bit b of a mask of the
    /// library's is for the one at place b.
    pub fn barriers(&self, region: Region) -> Vec<u8> {
        let parallel = match region {
            Region::Outermost => None,
            Region::Parallel(number) => u8::try_from(number).ok(),
        };
        let closes = |x: &Node| match x.kind {
            NodeKind::Barrier => x.construct == parallel,
            NodeKind::Begin | NodeKind::End => parallel.is_some() && x.construct == parallel,
            NodeKind::Plain => false,
        };
        let numbered = (0u8..=u8::MAX).zip(&self.nodes);
        numbered
            .filter(|(_, x)| closes(x))
            .map(|(node, _)| node)
            .collect()
    }
}

/// The counts of a trailer that agrees with the length, and the bytes of a construct in its edition.
fn counts(bytes: &[u8]) -> Option<[usize; 4]> {
    let trailer = bytes.get(bytes.len().checked_sub(BYTES_TRAILER)?..)?;
    let mut fields = trailer
        .chunks(2)
        .map(|x| usize::from(u16::from_le_bytes([x[0], x[1]])));
    let mut next = || fields.next();
    let [edition, nodes, edges, constructs] = [next()?, next()?, next()?, next()?];
    let width = match u16::try_from(edition).ok()? {
        TRAILER_EDITION => BYTES_CONSTRUCT,
        TRAILER_EDITION_2 => BYTES_CONSTRUCT_2,
        _ => return None,
    };
    let to_constructs = width * constructs + BYTES_TRAILER;
    let to_edges = BYTES_EDGE * edges + to_constructs;
    let to_nodes = BYTES_NODE * nodes + to_edges;
    let within = (LEAST_NODES..=MOST_NODES).contains(&nodes)
        && (LEAST_EDGES..=MOST_EDGES).contains(&edges)
        && constructs <= MOST_CONSTRUCTS;
    let agrees = [next()?, next()?, next()?] == [to_nodes, to_edges, to_constructs]
        && next()? == usize::from(TRAILER_CLOSING)
        && bytes.len() == to_nodes;
    (within && agrees).then_some([nodes, edges, constructs, width])
}

fn node(record: &[u8]) -> Option<Node> {
    Some(Node {
        kind: *NODE_KINDS.get(usize::from(record[0]))?,
        construct: named(record[1]),
        tag: u16::from_le_bytes([record[2], record[3]]),
    })
}

fn construct(record: &[u8]) -> Option<Construct> {
    let place = usize::from(record[0]).checked_sub(1)?;
    Some(Construct {
        kind: *CONSTRUCT_KINDS.get(place)?,
        parent: named(record[1]),
        name: u16::from_le_bytes([record[2], record[3]]),
        filter: match record.get(4..6) {
            Some(bytes) => u16::from_le_bytes([bytes[0], bytes[1]]),
            None => 0,
        },
    })
}

/// A construct's number, or none.
fn named(byte: u8) -> Option<u8> {
    (byte != CONSTRUCT_NONE).then_some(byte)
}

/// The byte of a construct's number, or of none.
fn number(construct: Option<u8>) -> u8 {
    construct.unwrap_or(CONSTRUCT_NONE)
}
