//! The records of a chart, numbered, with what is known of their source.

use crate::flow::{Filter, NodeKind, SourceLine, Word, Words};
use crate::graph::{self, Record};
use crate::program::Target;
use crate::shaping::Shape;
use region::{Chart, Construct, ConstructKind, Name, Names, Node};
use std::collections::{BTreeMap, BTreeSet};

/// A region's chart with what is known of its source.
#[derive(Debug)]
pub(crate) struct Charted {
    pub chart: Chart,
    pub names: Names,
    /// Of each node the lines of its code, and those of the calls that lead to it.
    pub lines: Vec<[Vec<SourceLine>; 2]>,
    /// Of each node the line that comes last.
    pub last: Vec<Option<SourceLine>>,
    /// What was taken for less than it is, with how often.
    pub lessened: BTreeMap<String, usize>,
    /// What the limits cost.
    pub lost: Vec<String>,
    pub unanswered: BTreeMap<SourceLine, &'static str>,
    pub unanswered_calls: BTreeMap<Target, &'static str>,
    /// What calls come to that are not opened, in all and at each node.
    pub calls: BTreeSet<Target>,
    pub calls_at: Vec<Vec<Target>>,
    /// Of each node what a recorded run has for it, and whether a thread may come through without that.
    pub records: Vec<(Vec<Record>, bool)>,
    /// Routines with barriers or constructs of the team that are not opened, and why.
    pub closed: BTreeMap<usize, &'static str>,
    /// Criticals of the region's code, by function and directive; and those that the chart does not have.
    pub criticals: BTreeSet<(usize, usize)>,
    pub hidden: BTreeSet<(String, SourceLine)>,
}

/// The chart of a shape that is within the limits, or why the library does not take it.
pub(crate) fn records(words: &Words, shape: Shape) -> Result<Charted, String> {
    let order = ordered(&shape);
    let nodes: Vec<&graph::Node> = order
        .iter()
        .filter_map(|&x| shape.graph.nodes[x].as_ref())
        .collect();
    let (chart, names) = numbered(words, &shape, &order);
    if let Err(refusal) = bohrali::admit(&chart.encode()) {
        return Err(format!("the library refuses its chart: {refusal}"));
    }
    let critical = |x: usize| {
        let directive = &shape.graph.directives[x];
        (critical_name(words, directive.name), directive.place)
    };
    Ok(Charted {
        criticals: shape
            .criticals
            .iter()
            .map(|&x| shape.graph.origins[x])
            .collect(),
        hidden: shape.hidden.iter().map(|&x| critical(x)).collect(),
        lines: nodes
            .iter()
            .map(|x| [&x.lines, &x.via].map(|x| x.iter().collect()))
            .collect(),
        last: nodes.iter().map(|x| x.last).collect(),
        calls_at: nodes.iter().map(|x| x.calls.iter().collect()).collect(),
        records: nodes
            .iter()
            .map(|x| (x.records.iter().collect(), x.is_passed))
            .collect(),
        chart,
        names,
        lessened: shape.constructs.lessened,
        lost: Vec::new(),
        unanswered: shape.graph.unanswered,
        unanswered_calls: shape.graph.unanswered_calls,
        calls: shape.calls,
        closed: BTreeMap::new(),
    })
}

/// The nodes in the order of the chart: Start first, Finish last, and between them each behind what leads to
/// it, loops aside, in the order of their lines where nothing else decides.
fn ordered(shape: &Shape) -> Vec<usize> {
    let graph = &shape.graph;
    let line = |x: usize| {
        let first = graph.nodes[x].as_ref().and_then(|x| x.lines.iter().next());
        (first.map_or(u32::MAX, |x| x.line), x)
    };
    let later_first = |node: usize| {
        let mut next: Vec<usize> = graph.next[node].iter().collect();
        next.sort_by_key(|&x| std::cmp::Reverse(line(x)));
        next.into_iter()
    };
    let mut seen = vec![false; graph.nodes.len()];
    let mut left = Vec::new();
    let mut path = vec![(graph.start, later_first(graph.start))];
    (seen[graph.start], seen[graph.finish]) = (true, true);
    while let Some((node, next)) = path.last_mut() {
        match next.find(|&x| !seen[x]) {
            Some(to) => {
                seen[to] = true;
                path.push((to, later_first(to)));
            }
            None => {
                left.push(*node);
                path.pop();
            }
        }
    }
    left.reverse();
    left.push(graph.finish);
    left
}

/// Numbers are below 256 in what is within the limits.
fn byte(number: usize) -> u8 {
    u8::try_from(number).unwrap_or(u8::MAX)
}

fn numbered(words: &Words, shape: &Shape, order: &[usize]) -> (Chart, Names) {
    let mut nodes = vec![u8::MAX; shape.graph.nodes.len()];
    for (place, &number) in order.iter().enumerate() {
        nodes[number] = byte(place);
    }
    let kinds = &shape.constructs.kinds;
    let live = order
        .iter()
        .filter_map(|&x| Some((x, shape.graph.nodes[x].as_ref()?)));
    let opened = live.clone().filter(|x| x.1.kind == NodeKind::Open);
    let kept: Vec<usize> = opened.filter_map(|x| x.1.of).collect();
    let construct = |directive: Option<usize>| {
        let place = kept.iter().position(|x| Some(*x) == directive);
        place.map(byte)
    };
    let records = live.map(|(number, node)| {
        let (kind, directive) = match node.kind {
            NodeKind::Barrier => (region::NodeKind::Barrier, None),
            NodeKind::Open => (region::NodeKind::Begin, node.of),
            NodeKind::Close => (region::NodeKind::End, node.of),
            _ => (region::NodeKind::Plain, shape.scopes[number]),
        };
        Node {
            kind,
            construct: construct(directive),
            tag: 0,
        }
    });
    let mut edges: Vec<(u8, u8)> = shape
        .graph
        .edges()
        .map(|(from, to)| (nodes[from], nodes[to]))
        .collect();
    edges.sort_unstable();
    let (names, numbers) = named(words, shape, &kept);
    let constructs = kept.iter().zip(numbers).filter_map(|(&number, name)| {
        let directive = &shape.graph.directives[number];
        let mut around = shape.constructs.enclosing(&shape.graph, directive.parent);
        let kind = kinds[number]?;
        Some(Construct {
            kind,
            parent: construct(around.next()),
            name,
            filter: match (kind, directive.filter) {
                (ConstructKind::Master, Filter::Thread(x)) => u16::try_from(x).unwrap_or(0),
                _ => 0,
            },
        })
    });
    let chart = Chart {
        nodes: records.collect(),
        edges,
        constructs: constructs.collect(),
    };
    (chart, names)
}

/// The names of the constructs, with their numbers.
fn named(words: &Words, shape: &Shape, kept: &[usize]) -> (Names, Vec<u16>) {
    let name = |&x: &usize| {
        let name = shape.graph.directives[x].name;
        match shape.constructs.kinds[x] {
            Some(ConstructKind::Critical) if name.is_some() => {
                Name::Word(critical_name(words, name))
            }
            _ => Name::Unnamed,
        }
    };
    Names::number(&kept.iter().map(name).collect::<Vec<_>>())
}

/// The name of a critical as a table can have it; empty if it has none. The flow's escapes become those
/// of a word, and different names stay different.
pub(crate) fn critical_name(words: &Words, name: Option<Word>) -> String {
    name.map_or(String::new(), |x| table_name(words.text(x)))
}

/// The same of a name as the flow has it.
pub(crate) fn table_name(name: &str) -> String {
    let text = name.replace('%', "$");
    if text.starts_with(|x: char| x.is_ascii_alphabetic() || x == '_') {
        text
    } else {
        // The flow escapes no underline, so no other name begins so.
        format!("_$5F{text}")
    }
}
