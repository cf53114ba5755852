//! Rows numbered again after some were put in or taken out.

use crate::csv::{self, written, CsvRow};
use crate::heading::Heading;
use crate::problem::{column, quoted, Problems, Wrong, HEADINGS};
use crate::rows::expect_count;
use std::collections::HashMap;

/// The text with its rows numbered from 0 and every `next` changed to match; `below` is the row underneath.
/// Everything else is as it was.
pub fn tidy(text: &[u8]) -> Result<String, Wrong> {
    let lines = csv::rows(text)?;
    let heading = Heading::read(lines.first())?;
    let body = lines.get(1..).unwrap_or(&[]);
    let mut problems = Problems::default();
    expect_count(body, &mut problems);
    problems.stop()?;
    let numbers = numbers(body, &mut problems);
    let mut out = String::new();
    for row in lines.iter().take(1) {
        put(
            &mut out,
            row.cells().take(heading.columns).map(String::from),
        );
    }
    for (node, row) in body.iter().enumerate() {
        let next = successors(node, row, body.len(), &numbers, &mut problems);
        let width = row.cells().count().max(HEADINGS.len());
        put(
            &mut out,
            (0..width).map(|place| match place {
                column::NODE => node.to_string(),
                column::NEXT => next.clone(),
                _ => row.cell(place).to_string(),
            }),
        );
    }
    problems.stop()?;
    Ok(out)
}

/// The new number of each old one.
fn numbers<'a>(body: &'a [CsvRow], problems: &mut Problems) -> HashMap<&'a str, usize> {
    let mut numbers: HashMap<&str, usize> = HashMap::new();
    for (node, row) in body.iter().enumerate() {
        let old = row.cell(column::NODE);
        if old.is_empty() {
            continue;
        }
        let first = *numbers.entry(old).or_insert(node);
        if first != node {
            let message = format!(
                "number {} stands in row {} too; empty the cell of the new row",
                quoted(old),
                body[first].line
            );
            problems.cell(row.line, column::NODE, message);
        }
    }
    numbers
}

fn successors(
    node: usize,
    row: &CsvRow,
    count: usize,
    numbers: &HashMap<&str, usize>,
    problems: &mut Problems,
) -> String {
    let mut next: Vec<String> = Vec::new();
    for word in row.cell(column::NEXT).split_whitespace() {
        match (word, numbers.get(word)) {
            ("below", _) if node + 1 < count => next.push((node + 1).to_string()),
            ("below", _) => problems.cell(row.line, column::NEXT, "no row is below the last"),
            (_, Some(new)) => next.push(new.to_string()),
            (_, None) => {
                let message = format!("no row has the number {}", quoted(word));
                problems.cell(row.line, column::NEXT, message);
            }
        }
    }
    next.join(" ")
}

fn put(out: &mut String, cells: impl Iterator<Item = String>) {
    let cells: Vec<String> = cells.map(|x| written(&x).into_owned()).collect();
    *out += &(cells.join(",") + "\n");
}
