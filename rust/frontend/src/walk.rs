//! The steps of recorded threads through a chart. An entry of the log says that a thread has come to some
//! code; which node of the chart that is, and what it came through without an entry, is found from the
//! chart's edges and from what threads do at constructs.

use crate::log::{Entry, Event, Instance};
use crate::map::{Map, Marked};
use region::{Chart, ConstructKind, NodeKind};
use std::collections::{BTreeMap, HashMap, VecDeque};

/// Why a node had to be filled in.
#[derive(Clone, Copy, Debug, PartialEq, Eq, PartialOrd, Ord)]
pub enum Filled {
    /// The end of a loop or of sections in which the thread had no turn.
    NoTurn,
    /// The end of another construct.
    End,
    /// The code leaves no entry, as the halves of an atomic.
    Mute,
}

/// A thread's step to a node.
#[derive(Clone, Copy, Debug, PartialEq, Eq)]
pub(crate) struct Step {
    /// Where in the log it is made.
    pub place: usize,
    pub node: u8,
    pub filled: Option<Filled>,
}

/// How a node is reached from another: what is between, none of which leaves an entry.
type Ways = HashMap<u8, Vec<u8>>;

/// A chart as threads walk through it.
pub(crate) struct Walks<'a> {
    chart: &'a Chart,
    next: Vec<Vec<u8>>,
    /// The nodes that an entry may mean.
    nodes: HashMap<Marked, Vec<u8>>,
    /// By node, whether a thread may come through it without an entry.
    passed: Vec<bool>,
    /// By node, whether no entry means it.
    mute: Vec<bool>,
    ways: BTreeMap<u8, Ways>,
}

/// A node that a thread may be at, with the one before it in the layer before, and what it cost.
#[derive(Clone, Copy)]
struct Guess {
    node: u8,
    before: usize,
    cost: usize,
}

/// An entry that means nodes of the chart, and the claim before it.
struct Met<'a> {
    place: usize,
    nodes: &'a [u8],
    claim: Option<usize>,
}

impl<'a> Walks<'a> {
    pub fn new(chart: &'a Chart, map: &Map) -> Walks<'a> {
        let mut nodes: HashMap<Marked, Vec<u8>> = HashMap::new();
        // Nobody comes to Start.
        for (node, mapped) in (0..=u8::MAX).zip(&map.nodes).skip(1) {
            for entry in &mapped.entries {
                nodes.entry(*entry).or_default().push(node);
            }
        }
        Walks {
            next: steps(chart),
            nodes,
            passed: map.nodes.iter().map(|x| x.is_passed).collect(),
            mute: map.nodes.iter().map(|x| x.entries.is_empty()).collect(),
            ways: BTreeMap::new(),
            chart,
        }
    }

    pub fn is_barrier(&self, node: u8) -> bool {
        self.kind(node) == Some(NodeKind::Barrier)
    }

    pub fn finish(&self) -> u8 {
        u8::try_from(self.chart.nodes.len().saturating_sub(1)).unwrap_or(u8::MAX)
    }

    fn kind(&self, node: u8) -> Option<NodeKind> {
        self.chart.node(node).map(|x| x.kind)
    }

    /// Whether a thread may have passed a node without an entry.
    fn is_passable(&self, node: u8) -> bool {
        let is_passed = self.passed.get(usize::from(node)).copied();
        self.kind(node) != Some(NodeKind::Barrier) && is_passed.unwrap_or(false)
    }

    /// All nodes that can be next after a node, with the fewest in between.
    fn ways(&mut self, from: u8) -> &Ways {
        if !self.ways.contains_key(&from) {
            let mut found = Ways::new();
            let mut work = VecDeque::from([(from, Vec::new())]);
            while let Some((node, way)) = work.pop_front() {
                for &to in &self.next[usize::from(node)] {
                    if found.contains_key(&to) {
                        continue;
                    }
                    found.insert(to, way.clone());
                    if self.is_passable(to) {
                        let mut further = way.clone();
                        further.push(to);
                        work.push_back((to, further));
                    }
                }
            }
            self.ways.insert(from, found);
        }
        &self.ways[&from]
    }

    /// The construct that a node begins or ends.
    fn framed(&self, node: u8) -> Option<(NodeKind, ConstructKind)> {
        let own = self.chart.node(node)?;
        let is_framing = matches!(own.kind, NodeKind::Begin | NodeKind::End);
        let construct = self
            .chart
            .construct(own.construct.filter(|_| is_framing)?)?;
        Some((own.kind, construct.kind))
    }

    /// Whether threads are told there who takes a single or a section.
    fn asks(&self, node: u8) -> bool {
        use ConstructKind::{Sections, Single};
        matches!(
            self.framed(node),
            Some((NodeKind::Begin, Single | Sections) | (NodeKind::End, Sections))
        )
    }

    fn why_filled(&self, node: u8) -> Filled {
        use ConstructKind::{Do, Sections};
        let is_mute = self.mute.get(usize::from(node)).copied();
        match self.framed(node) {
            Some((NodeKind::End, Do | Sections)) => Filled::NoTurn,
            Some((NodeKind::End, _)) => Filled::End,
            _ if is_mute == Some(true) => Filled::Mute,
            // of a deeper region
            _ => Filled::End,
        }
    }

    /// The steps of one thread. The last may be one that the chart does not have: then what follows in the
    /// log is left.
    pub fn steps(&mut self, instance: &Instance, thread: usize) -> Vec<Step> {
        let table = std::mem::take(&mut self.nodes);
        let own = instance.entries.iter().filter(|x| x.thread == thread);
        let met = met(&table, own);
        let mut layers = vec![vec![Guess {
            node: 0,
            before: 0,
            cost: 0,
        }]];
        for entry in &met {
            let last = layers.last().map_or(&[][..], Vec::as_slice);
            let layer = self.layer(last, entry.nodes);
            if layer.is_empty() {
                break;
            }
            layers.push(layer);
        }
        let steps = self.chosen(&layers, &met);
        self.nodes = table;
        steps
    }

    /// The guesses after an entry, the cheapest for each node.
    fn layer(&mut self, before: &[Guess], nodes: &[u8]) -> Vec<Guess> {
        let mut layer: Vec<Guess> = Vec::new();
        for (number, guess) in before.iter().enumerate() {
            for &node in nodes {
                let Some(cost) = self.cost(guess.node, node) else {
                    continue;
                };
                let cost = guess.cost + cost;
                match layer.iter_mut().find(|x| x.node == node) {
                    Some(known) if known.cost <= cost => {}
                    Some(known) => (known.before, known.cost) = (number, cost),
                    None => layer.push(Guess {
                        node,
                        before: number,
                        cost,
                    }),
                }
            }
        }
        layer
    }

    /// Staying costs nothing, and what is filled in costs more than what is not.
    fn cost(&mut self, from: u8, to: u8) -> Option<usize> {
        if self.stays(from, to) {
            return Some(0);
        }
        self.ways(from).get(&to).map(|way| 1 + 4 * way.len())
    }

    /// Plain code that was joined has several entries for one node.
    fn stays(&self, from: u8, to: u8) -> bool {
        from == to && self.kind(to) == Some(NodeKind::Plain)
    }

    /// The steps along the cheapest guesses.
    fn chosen(&mut self, layers: &[Vec<Guess>], met: &[Met]) -> Vec<Step> {
        let mut chain = Vec::new();
        let last = layers.last().map_or(&[][..], Vec::as_slice);
        let mut guess = (0..last.len()).min_by_key(|&x| last[x].cost).unwrap_or(0);
        for layer in layers.iter().skip(1).rev() {
            chain.push(layer[guess].node);
            guess = layer[guess].before;
        }
        chain.reverse();
        let mut steps = Vec::new();
        let mut at = 0;
        for (entry, &node) in met.iter().zip(&chain) {
            if !self.stays(at, node) {
                self.add(&mut steps, at, node, entry);
                at = node;
            }
        }
        // The step that the chart does not have.
        if let Some(entry) = met.get(chain.len()) {
            steps.push(Step {
                place: entry.place,
                node: entry.nodes[0],
                filled: None,
            });
        }
        steps
    }

    fn add(&mut self, steps: &mut Vec<Step>, from: u8, to: u8, entry: &Met) {
        let claim = entry.claim.filter(|_| self.asks(from));
        let way = self.ways(from).get(&to).cloned().unwrap_or_default();
        let nodes = way.iter().copied().chain([to]).enumerate();
        for (number, node) in nodes {
            let is_filled = number < way.len();
            steps.push(Step {
                place: claim.filter(|_| number == 0).unwrap_or(entry.place),
                node,
                filled: is_filled.then(|| self.why_filled(node)),
            });
        }
    }
}

/// The entries that mean nodes of the chart. Others are of code that it does not have; a claim among them
/// stays for the next.
fn met<'a>(
    nodes: &'a HashMap<Marked, Vec<u8>>,
    entries: impl Iterator<Item = &'a Entry>,
) -> Vec<Met<'a>> {
    let mut claim = None;
    let mut met = Vec::new();
    for entry in entries {
        match entry.event {
            Event::Claim => claim = Some(entry.place),
            Event::At(marked) => {
                if let Some(nodes) = nodes.get(&marked) {
                    met.push(Met {
                        place: entry.place,
                        nodes,
                        claim: claim.take(),
                    });
                }
            }
        }
    }
    met
}

/// Where threads may go from each node: along edges, past constructs and round again.
fn steps(chart: &Chart) -> Vec<Vec<u8>> {
    use ConstructKind::{Do, Master, Sections, Single};
    let mut next = vec![Vec::new(); chart.nodes.len()];
    for &(from, to) in &chart.edges {
        next[usize::from(from)].push(to);
    }
    for (number, construct) in (0..=u8::MAX).zip(&chart.constructs) {
        let (Some(begin), Some(end)) = (chart.begin(number), chart.end(number)) else {
            continue;
        };
        let inside = next[usize::from(begin)].clone();
        if matches!(construct.kind, Do | Sections) {
            next[usize::from(end)].extend(inside);
        }
        if matches!(construct.kind, Single | Master | Do | Sections) {
            next[usize::from(begin)].push(end);
        }
    }
    next
}
