//! Where the nodes lead: the edges, and the paths that they make.

use crate::chart::{Chart, ConstructKind, NodeKind};
use crate::nesting::label;
use crate::problem::{column, Problems, Wrong};
use crate::rows::Row;
use bohrali::limits::MOST_EDGES;

/// Each edge by itself.
pub(crate) fn check(chart: &Chart, rows: &[Row]) -> Result<(), Wrong> {
    let mut problems = Problems::default();
    let count = chart.edges.len();
    if let (Some(row), true) = (rows.last(), count > MOST_EDGES) {
        let message = format!("{count} edges, and a region has at most {MOST_EDGES}");
        problems.cell(row.line, column::NEXT, message);
    }
    for (from, row) in (0u8..=u8::MAX).zip(rows) {
        let is_last = usize::from(from) + 1 == rows.len();
        match (is_last, row.next.is_empty()) {
            (true, false) => {
                let message = "the last node leads nowhere: 'next' is empty";
                problems.cell(row.line, column::NEXT, message);
            }
            (false, true) => {
                let message = "nothing found; every node but the last leads somewhere";
                problems.cell(row.line, column::NEXT, message);
            }
            (true, true) => {}
            (false, false) => {
                for message in row.next.iter().filter_map(|&to| forbidden(chart, from, to)) {
                    problems.cell(row.line, column::NEXT, message);
                }
            }
        }
    }
    problems.stop_for(chart)
}

/// Why no edge leads from one node to another.
fn forbidden(chart: &Chart, from: u8, to: u8) -> Option<String> {
    if to == 0 {
        return Some("node 0 is where the team starts, and no node leads to it".into());
    }
    if let Some(sections) = joins_sections(chart, from, to) {
        let end = chart.end(sections)?;
        return Some(format!(
            "a section's end leads to the end of its sections (node {end}), not to a section's begin (node {to})"
        ));
    }
    let (left, come_to) = (chart.leaving(from), chart.arriving(to));
    (left != come_to).then(|| {
        format!(
            "from node {from}, {}, to node {to}, {}: a construct is entered at its begin and left at its end alone",
            lies(chart, left),
            lies(chart, come_to)
        )
    })
}

/// The sections of a section whose end leads to a section's begin.
fn joins_sections(chart: &Chart, from: u8, to: u8) -> Option<u8> {
    let section = |node: u8, kind: NodeKind| {
        let node = chart.node(node).filter(|x| x.kind == kind)?;
        let construct = chart.construct(node.construct?)?;
        (construct.kind == ConstructKind::Section).then_some(construct)
    };
    section(to, NodeKind::Begin)?;
    section(from, NodeKind::End)?.parent
}

fn lies(chart: &Chart, construct: Option<u8>) -> String {
    match construct {
        Some(construct) => format!("inside {}", label(chart, construct)),
        None => "outside all constructs".into(),
    }
}

/// That every node lies on a path from the first to the last.
pub(crate) fn check_paths(chart: &Chart, rows: &[Row]) -> Result<(), Wrong> {
    let mut problems = Problems::default();
    let last = rows.len().saturating_sub(1);
    let onward = |x: &(u8, u8)| (usize::from(x.0), usize::from(x.1));
    let forward: Vec<(usize, usize)> = chart.edges.iter().map(onward).collect();
    let backward: Vec<(usize, usize)> = forward.iter().map(|x| (x.1, x.0)).collect();
    let (there, home) = (
        reached(0, rows.len(), &forward),
        reached(last, rows.len(), &backward),
    );
    for (node, row) in rows.iter().enumerate() {
        if !there[node] {
            let message = format!(
                "no path leads from node 0 to node {node}: some row's 'next' should name it"
            );
            problems.cell(row.line, column::NODE, message);
        } else if !home[node] {
            let message = format!("no path leads from node {node} to the last node, {last}");
            problems.cell(row.line, column::NEXT, message);
        }
    }
    problems.stop_for(chart)
}

fn reached(first: usize, count: usize, edges: &[(usize, usize)]) -> Vec<bool> {
    let mut seen = vec![false; count];
    let mut waiting = vec![first];
    while let Some(node) = waiting.pop() {
        if !std::mem::replace(&mut seen[node], true) {
            waiting.extend(edges.iter().filter(|x| x.0 == node).map(|x| x.1));
        }
    }
    seen
}
