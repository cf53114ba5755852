//! `bohrali phases`: the barriers between which each node lies.

use super::Command;
use crate::arguments::{Arguments, JSON, REGION};
use crate::json::Json;
use crate::report::{Failure, Report, Terminal};
use crate::subject::{Subject, Team};

pub const COMMAND: Command = Command {
    name: "phases",
    operands: "FILE",
    count: (1, 1),
    summary: "for each node the barriers that it starts from and ends at",
    details: &[
        "A barrier is a start of a node where a path leads from it to the node past no other barrier, and an
end where one leads from the node to it. Barriers are named by their node numbers.",
    ],
    options: &[REGION, JSON],
    run,
};

/// A node with its barriers.
struct Row {
    node: u8,
    starts: Vec<u8>,
    ends: Vec<u8>,
}

fn run(arguments: &Arguments, _: &Terminal) -> Result<Report, Failure> {
    let region = Team::named(arguments)?.region;
    let subject = Subject::read(&arguments.operands[0])?;
    let phases = subject.phases(region)?;
    let barriers = subject.table().chart.barriers(region);
    let set = |mask: u64| -> Vec<u8> {
        let marked = |x: &(usize, &u8)| mask >> x.0 & 1 == 1;
        let numbered = barriers.iter().enumerate().take(u64::BITS as usize);
        numbered.filter(marked).map(|x| *x.1).collect()
    };
    let rows: Vec<Row> = (0u8..)
        .zip(&phases)
        .filter(|(_, masks)| **masks != (0, 0))
        .map(|(node, masks)| Row {
            node,
            starts: set(masks.0),
            ends: set(masks.1),
        })
        .collect();
    Ok(Report::of(match arguments.has(&JSON) {
        true => document(&subject, region.number(), &rows),
        false => text(&subject, &rows),
    }))
}

fn text(subject: &Subject, rows: &[Row]) -> String {
    let joined = |x: &[u8]| x.iter().map(u8::to_string).collect::<Vec<_>>().join(" ");
    let cells: Vec<(String, String)> = rows
        .iter()
        .map(|x| (joined(&x.starts), joined(&x.ends)))
        .collect();
    let starts = cells.iter().map(|x| x.0.len()).fold(6, usize::max);
    let ends = cells.iter().map(|x| x.1.len()).fold(4, usize::max);
    let mut text = format!(" node  {:<starts$}  ends\n", "starts");
    for (row, (from, to)) in rows.iter().zip(&cells) {
        let (kind, place) = (
            subject.table().kind(row.node),
            subject.table().place(row.node),
        );
        let line = format!(
            "{:>5}  {from:<starts$}  {to:<ends$}  {kind:<16} {place}",
            row.node
        );
        text += &format!("{}\n", line.trim_end());
    }
    text
}

fn document(subject: &Subject, region: usize, rows: &[Row]) -> String {
    let list = |x: &[u8]| Json::list(x, |&x| Json::number(x));
    let row = |x: &Row| {
        Json::Object(vec![
            ("node", Json::number(x.node)),
            ("starts", list(&x.starts)),
            ("ends", list(&x.ends)),
        ])
    };
    let fields = vec![
        ("file", Json::text(&subject.file)),
        ("region", Json::Number(region)),
        ("phases", Json::list(rows, row)),
    ];
    Json::Object(fields).document()
}
