//! A builder of chart bytes for tests and generators: add constructs, nodes and edges, take bytes.
//! It checks nothing, so that wrong charts can be built too.

use crate::chart::{Chart, Construct, Edge, Node, Trailer};
use crate::masked;

/// The edition and records of a chart to be; the fields are open, so that single ones can be changed.
#[derive(Clone, Debug)]
pub struct ChartBuilder {
    pub edition: u16,
    pub nodes: Vec<Node>,
    pub edges: Vec<Edge>,
    pub constructs: Vec<Construct>,
}

impl Default for ChartBuilder {
    fn default() -> ChartBuilder {
        ChartBuilder::new()
    }
}

impl ChartBuilder {
    /// Nothing, in edition 1.
    pub fn new() -> ChartBuilder {
        ChartBuilder::of_edition(Trailer::EDITION)
    }

    pub fn of_edition(edition: u16) -> ChartBuilder {
        ChartBuilder {
            edition,
            nodes: Vec::new(),
            edges: Vec::new(),
            constructs: Vec::new(),
        }
    }

    /// The records of a decoded chart, to be changed and encoded again.
    pub fn from_chart(chart: &Chart) -> ChartBuilder {
        ChartBuilder {
            edition: chart.edition,
            nodes: chart.nodes.clone(),
            edges: chart.edges.clone(),
            constructs: chart.constructs.clone(),
        }
    }

    /// Adds a construct of filter 0 and gives its number.
    pub fn construct(&mut self, kind: u8, parent: u8, name: u16) -> u8 {
        self.add(Construct {
            kind,
            parent,
            name,
            filter: 0,
        })
    }

    /// Adds a masked construct and gives its number. The filter is written in edition 2 alone.
    pub fn masked(&mut self, parent: u8, filter: u16) -> u8 {
        self.add(Construct {
            kind: Construct::MASTER,
            parent,
            name: 0,
            filter,
        })
    }

    /// Adds a construct and gives its number.
    pub fn add(&mut self, construct: Construct) -> u8 {
        self.constructs.push(construct);
        (self.constructs.len() - 1) as u8
    }

    pub fn barrier(&mut self) -> usize {
        self.node(Node::BARRIER, Construct::NONE)
    }

    /// A barrier of an inner region.
    pub fn barrier_of(&mut self, region: u8) -> usize {
        self.node(Node::BARRIER, region)
    }

    pub fn plain(&mut self, construct: u8) -> usize {
        self.node(Node::PLAIN, construct)
    }

    pub fn begin(&mut self, construct: u8) -> usize {
        self.node(Node::BEGIN, construct)
    }

    pub fn end(&mut self, construct: u8) -> usize {
        self.node(Node::END, construct)
    }

    /// Adds a node and gives its number.
    pub fn node(&mut self, kind: u8, construct: u8) -> usize {
        self.nodes.push(Node { kind, construct });
        self.nodes.len() - 1
    }

    pub fn edge(&mut self, from: usize, to: usize) {
        self.edges.push(Edge {
            from: from as u8,
            to: to as u8,
        });
    }

    /// Edges from each node to the next, "edges in a row".
    pub fn row(&mut self) {
        for to in 1..self.nodes.len() {
            self.edge(to - 1, to);
        }
    }

    /// The chart with its edges sorted and none twice.
    pub fn bytes(&self) -> Vec<u8> {
        let mut sorted = self.clone();
        sorted.edges.sort_unstable();
        sorted.edges.dedup();
        sorted.bytes_unsorted()
    }

    /// The chart with its edges as they were added.
    pub fn bytes_unsorted(&self) -> Vec<u8> {
        let mut bytes = Vec::with_capacity(4 * self.nodes.len() + 2 * self.edges.len() + 256);
        for node in &self.nodes {
            bytes.extend([node.kind, node.construct, 0, 0]);
        }
        let edges_at = bytes.len();
        for edge in &self.edges {
            bytes.extend([edge.from, edge.to]);
        }
        let constructs_at = bytes.len();
        for construct in &self.constructs {
            bytes.extend([construct.kind, construct.parent]);
            bytes.extend(construct.name.to_le_bytes());
            if self.edition == masked::EDITION {
                bytes.extend(construct.filter.to_le_bytes());
            }
        }
        let length = bytes.len() + Trailer::BYTES;
        let fields = [
            usize::from(self.edition),
            self.nodes.len(),
            self.edges.len(),
            self.constructs.len(),
            length,
            length - edges_at,
            length - constructs_at,
        ];
        for field in fields {
            bytes.extend((field as u16).to_le_bytes());
        }
        bytes.extend(Trailer::CLOSING);
        bytes
    }
}
