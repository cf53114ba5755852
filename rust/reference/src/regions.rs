//! Regions inside regions (02, Note 12): a parallel construct is a region of its own, and each call but
//! Admit reads the chart for one region. What is cut away gets no number in the chart so read, so that
//! all other modules see an ordinary chart: that of one team.

use crate::chart::{Chart, Construct, Edge, Node};
use crate::refusals::decode_checked;

/// "Or 255 for the outermost."
pub const OUTERMOST: u8 = 255;

/// A chart as read for one region.
#[derive(Clone, Debug)]
pub struct Region {
    /// What one team runs over, with numbers of its own for nodes and constructs.
    pub chart: Chart,
    /// By node of the whole chart, its number here; none outside the region.
    pub place: Vec<Option<usize>>,
    /// By construct of the whole chart, its number here; none where it is no construct of the region's own.
    pub constructs: Vec<Option<usize>>,
}

/// Rows 1 to 10, then 23: "a number other than 255 that names no parallel"; otherwise the chart read for
/// that region.
pub fn read(bytes: &[u8], region: u64) -> Result<Region, u8> {
    let chart = decode_checked(bytes)?;
    let named = u8::try_from(region).ok();
    let known = named.filter(|&x| x == OUTERMOST || chart.is_kind(x, Construct::PARALLEL));
    known.map(|region| chart.read_for(region)).ok_or(23)
}

/// The chart as the outermost team runs over it, every node under its own number; or a refusal 1 to 10.
pub fn read_outermost(bytes: &[u8]) -> Result<Chart, u8> {
    read(bytes, OUTERMOST.into()).map(|region| region.chart)
}

impl Region {
    /// Row 13: "n or more, or a barrier", and "a node outside the region"; otherwise the node's number
    /// in the chart so read.
    pub fn judged(&self, node: u64) -> Result<usize, u8> {
        let node = usize::try_from(node).ok();
        let place = node.and_then(|x| self.place.get(x).copied().flatten());
        place.filter(|&x| !self.chart.is_barrier(x)).ok_or(13)
    }
}

impl Chart {
    /// All regions of a chart, the outermost last.
    pub fn regions(&self) -> Vec<u8> {
        let numbers = 0..self.constructs.len() as u8;
        let inner = numbers.filter(|&x| self.is_kind(x, Construct::PARALLEL));
        inner.chain([OUTERMOST]).collect()
    }

    /// The chart as the team of a region runs over it: "what lies outside, also an edge from its end to
    /// its begin, is cut away, deeper regions' barriers become plain nodes, and deeper constructs count
    /// for nothing".
    pub fn read_for(&self, region: u8) -> Region {
        let place = numbered(self.nodes.len(), |x| self.is_in_region(x, region));
        let constructs = numbered(self.constructs.len(), |c| self.counts_in(c, region));
        let number = |x: usize| place[x].expect("a node of the region");
        let nodes = (0..self.nodes.len()).filter(|&x| place[x].is_some());
        let chart = Chart {
            edition: self.edition,
            nodes: nodes
                .map(|x| self.node_in(x, region, &constructs))
                .collect(),
            edges: self.edges_in(region, &place),
            constructs: self.constructs_in(&constructs),
            start: number(self.start_of(region)),
            finish: number(self.finish_of(region)),
        };
        Region {
            chart,
            place,
            constructs,
        }
    }

    /// The node from which a region's team starts: its begin and end "are its Start and Finish".
    fn start_of(&self, region: u8) -> usize {
        match region {
            OUTERMOST => self.start,
            _ => self.begin_of(region.into()),
        }
    }

    fn finish_of(&self, region: u8) -> usize {
        match region {
            OUTERMOST => self.finish,
            _ => self.end_of(region.into()),
        }
    }

    /// Whether a node is one of a region: inside it at any depth, or its begin or end, which "stay when
    /// it is read". Nothing lies outside the outermost.
    fn is_in_region(&self, node: usize, region: u8) -> bool {
        region == OUTERMOST
            || self.frames(node, region)
            || self.enclosing(node).contains(&region.into())
    }

    /// Whether a node is the begin or end of a construct.
    fn frames(&self, node: usize, construct: u8) -> bool {
        let own = self.nodes[node];
        matches!(own.kind, Node::BEGIN | Node::END) && own.construct == construct
    }

    /// The region that a scope lies in: the innermost parallel that it is or that is around it.
    fn region_of(&self, scope: u8) -> u8 {
        let mut around = self.outward(scope).into_iter();
        let nearest = around.find(|&c| self.constructs[c].kind == Construct::PARALLEL);
        nearest.map_or(OUTERMOST, |c| c as u8)
    }

    /// Whether a construct is one of a region's own: no deeper one, none around it, and no parallel,
    /// which is a region.
    fn counts_in(&self, construct: usize, region: u8) -> bool {
        let Construct { kind, parent, .. } = self.constructs[construct];
        kind != Construct::PARALLEL && self.region_of(parent) == region
    }

    /// A node as a region has it. Its barriers are those that name it, with its begin and end.
    fn node_in(&self, node: usize, region: u8, constructs: &[Option<usize>]) -> Node {
        let Node { kind, construct } = self.nodes[node];
        let own = |c: usize| constructs[c].map(|number| number as u8);
        let barrier = kind == Node::BARRIER && construct == region;
        let framing = match kind {
            Node::BEGIN | Node::END => own(construct.into()),
            _ => None,
        };
        if barrier || self.frames(node, region) {
            return Node {
                kind: Node::BARRIER,
                construct: Construct::NONE,
            };
        }
        let around = self.enclosing(node).into_iter().find_map(own);
        Node {
            kind: framing.map_or(Node::PLAIN, |_| kind),
            construct: framing.or(around).unwrap_or(Construct::NONE),
        }
    }

    /// The edges between nodes of a region, but for that from its end to its begin.
    fn edges_in(&self, region: u8, place: &[Option<usize>]) -> Vec<Edge> {
        let again = |edge: &Edge| {
            region != OUTERMOST
                && usize::from(edge.from) == self.finish_of(region)
                && usize::from(edge.to) == self.start_of(region)
        };
        let number = |node: u8| place[usize::from(node)].map(|x| x as u8);
        let kept = self.edges.iter().filter(|edge| !again(edge));
        kept.filter_map(|edge| {
            Some(Edge {
                from: number(edge.from)?,
                to: number(edge.to)?,
            })
        })
        .collect()
    }

    /// The constructs that have got a number, their parents by these; a parent that has none is the
    /// region itself.
    fn constructs_in(&self, numbers: &[Option<usize>]) -> Vec<Construct> {
        let parent = |own: &Construct| {
            let number = numbers.get(usize::from(own.parent)).copied().flatten();
            number.map_or(Construct::NONE, |x| x as u8)
        };
        let all = self.constructs.iter().zip(numbers);
        all.filter(|(_, number)| number.is_some())
            .map(|(own, _)| Construct {
                parent: parent(own),
                ..*own
            })
            .collect()
    }

    /// "Nesting starts anew inside each region": what is above a construct, up to the nearest parallel.
    pub fn above_in_region(&self, construct: usize) -> Vec<usize> {
        let above = self.outward(self.constructs[construct].parent);
        let inner = |c: &usize| self.constructs[*c].kind != Construct::PARALLEL;
        above.into_iter().take_while(inner).collect()
    }

    /// Row 5: "a barrier naming a non-parallel", "as does one naming a region at node 0 or n-1".
    pub fn is_wrong_barrier(&self, node: usize) -> bool {
        let Node { kind, construct } = self.nodes[node];
        let outer = node == self.start || node == self.finish;
        kind == Node::BARRIER
            && construct != OUTERMOST
            && (outer || !self.is_kind(construct, Construct::PARALLEL))
    }

    /// The barriers of a region, its begin and end included.
    pub fn barriers_of(&self, region: u8) -> usize {
        let named = |node: &&Node| node.construct == region && node.kind != Node::PLAIN;
        self.nodes.iter().filter(named).count()
    }
}

/// Numbers from 0 for those that are kept.
fn numbered(count: usize, kept: impl Fn(usize) -> bool) -> Vec<Option<usize>> {
    let mut numbers = 0..;
    let number = |x: usize| if kept(x) { numbers.next() } else { None };
    (0..count).map(number).collect()
}

/// The calls for the outermost region.
pub mod outermost {
    use super::OUTERMOST;
    use crate::sizes::Teams;
    use crate::{calls, distances, locks};

    const REGION: u64 = OUTERMOST as u64;

    pub fn judge(chart: &[u8], claims: &[u8]) -> i64 {
        calls::judge(chart, REGION, claims)
    }

    pub fn pair(chart: &[u8], a: u64, b: u64) -> i64 {
        calls::pair(chart, REGION, a, b)
    }

    pub fn phases(chart: &[u8], out: &mut [u8]) -> i64 {
        calls::phases(chart, REGION, out)
    }

    pub fn sheet(chart: &[u8], out: &mut [u8]) -> i64 {
        calls::sheet(chart, REGION, out)
    }

    pub fn distances(chart: &[u8], out: &mut [u8]) -> i64 {
        distances::write(chart, REGION, out)
    }

    pub fn locks(chart: &[u8], out: &mut [u8]) -> i64 {
        locks::write(chart, REGION, Teams::OfAnySize, out)
    }
}
