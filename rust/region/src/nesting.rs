//! What may lie inside what. Inside each parallel, a region of its own, nesting starts anew.

use crate::chart::{Chart, Construct, ConstructKind, NodeKind};
use crate::kind::word;
use crate::problem::{column, Problems, Wrong};
use crate::rows::Row;
use bohrali::limits::MOST_BARRIERS;
use std::collections::BTreeMap;

pub(crate) fn check(chart: &Chart, rows: &[Row]) -> Result<(), Wrong> {
    let mut problems = Problems::default();
    for (own, construct) in (0u8..=u8::MAX).zip(&chart.constructs) {
        let begin = chart.begin(own).and_then(|x| rows.get(usize::from(x)));
        if let (Some(message), Some(row)) = (misplaced(chart, own, construct), begin) {
            problems.cell(row.line, column::INSIDE, message);
        }
    }
    for (node, row) in rows.iter().enumerate() {
        let is_outer = node == 0 || node + 1 == rows.len();
        if let Some(message) = stray(chart, node, is_outer) {
            problems.cell(row.line, column::INSIDE, message);
        }
    }
    expect_outer(rows, &mut problems);
    expect_few_barriers(chart, rows, &mut problems);
    problems.stop_for(chart)
}

/// A construct with its kind.
pub(crate) fn label(chart: &Chart, construct: u8) -> String {
    let kind = chart.construct(construct).map_or("", |x| word(x.kind));
    format!("construct {construct} ({kind})")
}

/// Why a construct may not lie where it does.
fn misplaced(chart: &Chart, own: u8, construct: &Construct) -> Option<String> {
    use ConstructKind::{Do, Ordered, Parallel, Section, Sections};
    let parent = construct.parent;
    let around = parent.and_then(|x| chart.construct(x)).map(|x| x.kind);
    let inside = parent.map_or("nothing".into(), |x| x.to_string());
    match (construct.kind, around) {
        (Ordered, around) if around != Some(Do) => Some(format!(
            "an ordered lies directly inside a do; this one lies inside {inside}"
        )),
        (Section, around) if around != Some(Sections) => Some(format!(
            "a section lies directly inside a sections; this one lies inside {inside}"
        )),
        (Parallel, around) if around != Some(Sections) => None,
        (kind, Some(Sections)) if kind != Section => Some(in_sections(chart, parent?, word(kind))),
        _ => {
            let kind_of = |x: u8| chart.construct(x).map(|x| x.kind);
            let mut above = chart
                .enclosing(own)
                .take_while(|&x| kind_of(x) != Some(Parallel));
            above.find_map(|x| forbidden(chart, construct, x))
        }
    }
}

/// Why one construct may not have another above it.
fn forbidden(chart: &Chart, below: &Construct, above: u8) -> Option<String> {
    use ConstructKind::{Critical, Do, Master, Ordered, Section, Sections, Single};
    let outer = chart.construct(above)?;
    let named = label(chart, above);
    match (below.kind, outer.kind) {
        (Single | Do | Sections, _) => Some(format!(
            "a {} is inside no other construct of its team; this one is inside {named}",
            word(below.kind)
        )),
        (Master, kind) if kind != Critical => Some(format!(
            "a master or masked is inside criticals only; this one is inside {named}"
        )),
        (Ordered, kind) if kind != Do => Some(format!(
            "an ordered is inside its do only; this one is inside {named}"
        )),
        (Section, kind) if kind != Sections => Some(format!(
            "a section is inside its sections only; this one is inside {named}"
        )),
        (Critical, Critical) if below.name == outer.name => Some(format!(
            "a critical of the same name is around this one, {named}: a thread would wait for itself"
        )),
        _ => None,
    }
}

fn in_sections(chart: &Chart, sections: u8, what: &str) -> String {
    let named = label(chart, sections);
    format!("directly inside a sections, {named}, lie only sections; this is a {what}")
}

/// Why a plain node or a barrier may not lie where it does.
fn stray(chart: &Chart, node: usize, is_outer: bool) -> Option<String> {
    let node = chart.nodes.get(node)?;
    let around = node.construct?;
    let kind = chart.construct(around)?.kind;
    match (node.kind, kind) {
        (NodeKind::Barrier, _) if is_outer => Some(
            "the first and the last row are barriers of the outermost region: 'inside' is empty".into(),
        ),
        (NodeKind::Barrier, kind) if kind != ConstructKind::Parallel => Some(format!(
            "a barrier inside {}: a barrier lies outside all constructs of its team, and 'inside' is empty or names a parallel",
            label(chart, around)
        )),
        (NodeKind::Plain, ConstructKind::Sections) => {
            Some(in_sections(chart, around, "plain node"))
        }
        _ => None,
    }
}

fn expect_outer(rows: &[Row], problems: &mut Problems) {
    let ends = [
        ("first", "starts", rows.first()),
        ("last", "finishes", rows.last()),
    ];
    for (which, what, row) in ends {
        let Some(row) = row else { continue };
        let found = row.kind.word();
        if found != "barrier" {
            let message = format!(
                "'{found}' found, 'barrier' expected: the {which} row is where the team {what}"
            );
            problems.cell(row.line, column::KIND, message);
        }
    }
}

/// Each region has its own count, with the two nodes where its team starts and finishes.
fn expect_few_barriers(chart: &Chart, rows: &[Row], problems: &mut Problems) {
    let mut counts = BTreeMap::new();
    for (node, row) in chart.nodes.iter().zip(rows) {
        if node.kind != NodeKind::Barrier {
            continue;
        }
        let framing = if node.construct.is_some() { 2 } else { 0 };
        let count = counts.entry(node.construct).or_insert(framing);
        *count += 1;
        if *count > MOST_BARRIERS {
            let message = format!(
                "one barrier too many: a region has at most {MOST_BARRIERS}, its first and last node counted"
            );
            problems.cell(row.line, column::KIND, message);
        }
    }
}
