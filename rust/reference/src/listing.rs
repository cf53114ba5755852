//! Charts from a directive listing (02, Note 2). The text is read byte by byte with a stack of what is open, and
//! each node, as it is met, is joined to those that wait for it. Edges are collected, then sorted.

use crate::builder::ChartBuilder;
use crate::calls::{number, result_part};
use crate::chart::{Chart, Construct, Node};
use crate::printing;
use crate::refusals::decode_checked;
use std::iter::Peekable;

/// "To depth 16, counted in open braces."
pub const MOST_DEPTH: usize = 16;

/// "The chart goes to a lent buffer, its length is returned."
pub fn listing(text: &[u8], out: &mut [u8]) -> i64 {
    number(chart(text).and_then(|chart| {
        result_part(out, chart.len())?.copy_from_slice(&chart);
        Ok(chart.len() as i64)
    }))
}

/// The chart of a listing: 14 and 15 over the whole text, "then 16 node, edge or construct count over 01's
/// limits; then 5 for a barrier inside a construct, 6 and 8 as 01 has them".
pub fn chart(text: &[u8]) -> Result<Vec<u8>, u8> {
    let chart = read(text)?.encoded()?;
    decode_checked(&chart)?;
    Ok(chart)
}

/// The longest text that the program takes; any chart's is far shorter.
pub const MOST_TEXT: usize = 65_535;

/// What the program prints for a listing: what the printing program prints for its chart.
pub fn text(input: &[u8]) -> String {
    if input.len() > MOST_TEXT {
        return "input too long\n".into();
    }
    match chart(input) {
        Ok(chart) => printing::text(&chart),
        Err(refusal) => format!("refused {refusal}\n"),
    }
}

/// What a brace has opened and the closing one will end.
enum Open {
    Loop {
        head: usize,
    },
    First {
        branch: usize,
    },
    /// With the nodes that the first block leaves to the join.
    Second {
        waiting: Vec<usize>,
    },
    Construct {
        own: usize,
        kind: u8,
        around: Option<usize>,
    },
}

/// A chart in the making. Numbers may still be beyond any limit.
struct Made {
    nodes: Vec<(u8, Option<usize>)>,
    edges: Vec<(usize, usize)>,
    /// Kind and parent.
    constructs: Vec<(u8, Option<usize>)>,
    /// The innermost construct around what comes next.
    around: Option<usize>,
    /// The nodes from which an edge leads to what comes next.
    waiting: Vec<usize>,
}

/// "Start and Finish go around the row." "14 a byte missing or with no place in the grammar, 15 depth over 16, of
/// these two the first met from the left."
fn read(text: &[u8]) -> Result<Made, u8> {
    let mut made = Made {
        nodes: Vec::new(),
        edges: Vec::new(),
        constructs: Vec::new(),
        around: None,
        waiting: Vec::new(),
    };
    made.node(Node::BARRIER, None);
    let mut open = Vec::new();
    let mut bytes = text.iter().copied().peekable();
    while let Some(byte) = bytes.next() {
        match byte {
            b's' => _ = made.node(Node::PLAIN, made.around),
            b'b' => _ = made.node(Node::BARRIER, made.around),
            b'}' => {
                let closed = open.pop().ok_or(14u8)?;
                open.extend(made.close(closed, &mut bytes)?);
            }
            letter => {
                let part = made.open(letter).ok_or(14u8)?;
                opened(&mut bytes, open.len())?;
                open.push(part);
            }
        }
    }
    if !open.is_empty() {
        return Err(14);
    }
    made.node(Node::BARRIER, None);
    Ok(made)
}

/// The open brace that is due here, at a depth of so many others.
fn opened(bytes: &mut impl Iterator<Item = u8>, depth: usize) -> Result<(), u8> {
    match bytes.next() {
        Some(b'{') if depth == MOST_DEPTH => Err(15),
        Some(b'{') => Ok(()),
        _ => Err(14),
    }
}

impl Made {
    /// "Nodes and constructs are numbered as met": the next node, to which those that wait lead.
    fn node(&mut self, kind: u8, construct: Option<usize>) -> usize {
        let own = self.nodes.len();
        self.nodes.push((kind, construct));
        self.lead_to(own);
        self.waiting = vec![own];
        own
    }

    fn lead_to(&mut self, node: usize) {
        let edges = self.waiting.iter().map(|&from| (from, node));
        self.edges.extend(edges);
    }

    /// What a letter opens, or none: "l{..} (loop), i{..}{..} (branch), and S, M, C, D, O with {..} for single,
    /// master, critical, do, ordered".
    fn open(&mut self, letter: u8) -> Option<Open> {
        let kind = match letter {
            b'l' => {
                let head = self.node(Node::PLAIN, self.around);
                return Some(Open::Loop { head });
            }
            b'i' => {
                let branch = self.node(Node::PLAIN, self.around);
                return Some(Open::First { branch });
            }
            b'S' => Construct::SINGLE,
            b'M' => Construct::MASTER,
            b'C' => Construct::CRITICAL,
            b'D' => Construct::DO,
            b'O' => Construct::ORDERED,
            _ => return None,
        };
        let own = self.constructs.len();
        self.constructs.push((kind, self.around));
        self.node(Node::BEGIN, Some(own));
        let around = self.around.replace(own);
        Some(Open::Construct { own, kind, around })
    }

    /// Ends what was open. A branch's first block is followed by the second, which is then open in its place.
    fn close(
        &mut self,
        closed: Open,
        bytes: &mut Peekable<impl Iterator<Item = u8>>,
    ) -> Result<Option<Open>, u8> {
        match closed {
            // "An edge back to the head; it leaves from the head."
            Open::Loop { head } => {
                self.lead_to(head);
                self.waiting = vec![head];
            }
            // The depth is that of the first block, which has passed.
            Open::First { branch } => {
                opened(bytes, 0)?;
                let waiting = std::mem::replace(&mut self.waiting, vec![branch]);
                return Ok(Some(Open::Second { waiting }));
            }
            // "A branch is a plain node, two blocks, a plain join."
            Open::Second { waiting } => {
                self.waiting.extend(waiting);
                self.node(Node::PLAIN, self.around);
            }
            Open::Construct { own, kind, around } => {
                self.node(Node::END, Some(own));
                self.around = around;
                let waits = [Construct::SINGLE, Construct::DO].contains(&kind);
                // "A barrier node follows S and D unless n stands after the brace."
                if waits && bytes.next_if_eq(&b'n').is_none() {
                    self.node(Node::BARRIER, self.around);
                }
            }
        }
        Ok(None)
    }

    /// The bytes of edition 1: "names and tags are 0, and a doubled edge is written once".
    fn encoded(mut self) -> Result<Vec<u8>, u8> {
        self.edges.sort_unstable();
        self.edges.dedup();
        if self.nodes.len() > *Chart::NODE_LIMITS.end()
            || self.edges.len() > *Chart::EDGE_LIMITS.end()
            || self.constructs.len() > *Chart::CONSTRUCT_LIMITS.end()
        {
            return Err(16);
        }
        let named = |construct: Option<usize>| construct.map_or(Construct::NONE, |c| c as u8);
        let mut chart = ChartBuilder::new();
        for (kind, construct) in self.nodes {
            chart.node(kind, named(construct));
        }
        for (kind, parent) in self.constructs {
            chart.construct(kind, named(parent), 0);
        }
        for (from, to) in self.edges {
            chart.edge(from, to);
        }
        Ok(chart.bytes_unsorted())
    }
}
