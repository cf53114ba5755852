//! The constructs of a table: numbers without a gap, one begin and one end each, parents.

use crate::chart::{Chart, Construct, Node, NodeKind};
use crate::kind::{Directive, RowKind};
use crate::names::{Name, Names};
use crate::problem::{column, Problems, Wrong};
use crate::rows::Row;
use bohrali::limits::MOST_CONSTRUCTS;

/// The rows in which a construct begins and ends.
#[derive(Clone, Copy, Default)]
struct Frame {
    begin: Option<usize>,
    end: Option<usize>,
}

/// The chart of the rows, with the words that name its criticals.
pub(crate) fn chart(rows: &[Row]) -> Result<(Chart, Names), Wrong> {
    let mut problems = Problems::default();
    let frames = frames(rows, &mut problems);
    expect_frames(rows, &frames, &mut problems);
    problems.stop()?;
    let frames: Vec<(usize, usize)> = frames
        .iter()
        .filter_map(|x| Some((x.begin?, x.end?)))
        .collect();
    expect_parents(rows, &frames, &mut problems);
    problems.stop()?;
    Ok(records(rows, &frames))
}

/// The first begin and end of each number; further ones are problems.
fn frames(rows: &[Row], problems: &mut Problems) -> [Frame; MOST_CONSTRUCTS] {
    let mut frames = [Frame::default(); MOST_CONSTRUCTS];
    for (node, row) in rows.iter().enumerate() {
        let Some(own) = row.own else { continue };
        let frame = &mut frames[usize::from(own)];
        let (place, word) = match row.kind {
            RowKind::End => (&mut frame.end, "end"),
            _ => (&mut frame.begin, "begin"),
        };
        let first = *place.get_or_insert(node);
        if first != node {
            let message =
                format!("construct {own} has a second {word} here; the first is node {first}");
            problems.cell(row.line, column::CONSTRUCT, message);
        }
    }
    frames
}

fn expect_frames(rows: &[Row], frames: &[Frame], problems: &mut Problems) {
    let count = frames.iter().filter(|x| x.begin.is_some()).count();
    for (own, frame) in frames.iter().enumerate() {
        let (row, message) = match (frame.begin, frame.end) {
            (Some(begin), None) => {
                let kind = rows[begin].kind.word();
                let message = format!(
                    "construct {own} ({kind}) has no end: a row 'end' with {own} in 'construct' is missing"
                );
                (begin, message)
            }
            (None, Some(end)) => (
                end,
                format!("this ends construct {own}, and no row begins it"),
            ),
            (Some(begin), Some(_)) if own >= count => {
                let last = count - 1;
                let message = format!(
                    "construct {own}, and there are {count} constructs: they are numbered 0 to {last} without a gap"
                );
                (begin, message)
            }
            _ => continue,
        };
        problems.cell(rows[row].line, column::CONSTRUCT, message);
    }
    for row in rows {
        let Some(named) = row.inside else { continue };
        if frames[usize::from(named)].begin.is_none() {
            let message = format!("construct {named} is named, and no row begins it");
            problems.cell(row.line, column::INSIDE, message);
        }
    }
}

fn expect_parents(rows: &[Row], frames: &[(usize, usize)], problems: &mut Problems) {
    let said = |x: Option<u8>| x.map_or("nothing".into(), |x| x.to_string());
    for (own, &(begin, end)) in frames.iter().enumerate() {
        let (above, below) = (rows[begin].inside, rows[end].inside);
        if above != below {
            let message = format!(
                "construct {own} ends inside {} and begins (node {begin}) inside {}",
                said(below),
                said(above)
            );
            problems.cell(rows[end].line, column::INSIDE, message);
        }
        if let Some(parent) = above.filter(|&x| usize::from(x) >= own) {
            let message = format!(
                "construct {own} lies inside {parent}; a construct has a higher number than the one around it"
            );
            problems.cell(rows[begin].line, column::INSIDE, message);
        }
    }
}

fn records(rows: &[Row], frames: &[(usize, usize)]) -> (Chart, Names) {
    let directives: Vec<(&Row, &Directive)> = frames
        .iter()
        .filter_map(|&(begin, _)| match &rows[begin].kind {
            RowKind::Begin(directive) => Some((&rows[begin], directive)),
            RowKind::Plain | RowKind::Barrier | RowKind::End => None,
        })
        .collect();
    let names: Vec<Name> = directives.iter().map(|x| x.1.name.clone()).collect();
    let (names, numbers) = Names::number(&names);
    let construct = |((row, directive), name): (&(&Row, &Directive), u16)| Construct {
        kind: directive.kind,
        parent: row.inside,
        name,
        filter: directive.filter,
    };
    let edges = (0u8..=u8::MAX).zip(rows);
    let chart = Chart {
        nodes: rows.iter().map(node).collect(),
        edges: edges
            .flat_map(|(from, row)| row.next.iter().map(move |&to| (from, to)))
            .collect(),
        constructs: directives.iter().zip(numbers).map(construct).collect(),
    };
    (chart, names)
}

fn node(row: &Row) -> Node {
    let (kind, construct) = match row.kind {
        RowKind::Plain => (NodeKind::Plain, row.inside),
        RowKind::Barrier => (NodeKind::Barrier, row.inside),
        RowKind::Begin(_) => (NodeKind::Begin, row.own),
        RowKind::End => (NodeKind::End, row.own),
    };
    Node {
        kind,
        construct,
        tag: row.tag,
    }
}
