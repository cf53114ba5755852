//! The rows under the heading, cell by cell: each is read by itself, and only the number of rows is known.

use crate::csv::CsvRow;
use crate::heading::Heading;
use crate::kind::RowKind;
use crate::names::decimal;
use crate::problem::{column, quoted, Problems, Wrong};
use bohrali::limits::{LEAST_NODES, MOST_CONSTRUCTS, MOST_NODES};

/// A row of the table.
#[derive(Debug)]
pub(crate) struct Row {
    pub line: usize,
    pub kind: RowKind,
    /// The number of its own construct: of a begin or an end.
    pub own: Option<u8>,
    pub inside: Option<u8>,
    pub next: Vec<u8>,
    pub place: String,
    pub tag: u16,
}

/// All rows, or what is wrong with their cells.
pub(crate) fn read(heading: &Heading, body: &[CsvRow]) -> Result<Vec<Row>, Wrong> {
    let mut problems = Problems::default();
    expect_count(body, &mut problems);
    problems.stop()?;
    expect_numbers(body, &mut problems);
    let mut rows = Vec::with_capacity(body.len());
    for cells in body {
        let mut reader = RowReader {
            cells,
            count: body.len(),
            problems: &mut problems,
        };
        rows.push(reader.row(heading));
    }
    problems.stop()?;
    Ok(rows)
}

pub(crate) fn expect_count(body: &[CsvRow], problems: &mut Problems) {
    if body.len() < LEAST_NODES {
        let found = body.len();
        let message =
            format!("{found} rows found under the heading, {LEAST_NODES} to {MOST_NODES} expected");
        problems.row(1, message);
    }
    if let Some(row) = body.get(MOST_NODES) {
        let over = MOST_NODES + 1;
        let message = format!(
            "this is row {over} under the heading, and a region has at most {MOST_NODES} nodes"
        );
        problems.row(row.line, message);
    }
}

/// The first wrong number is told: all rows below it would be named too.
fn expect_numbers(body: &[CsvRow], problems: &mut Problems) {
    let differs =
        |x: &(usize, &CsvRow)| !x.1.is_empty() && x.1.cell(column::NODE) != x.0.to_string();
    if let Some((expected, row)) = body.iter().enumerate().find(differs) {
        let found = match row.cell(column::NODE) {
            "" => "nothing".into(),
            text => quoted(text),
        };
        let message = format!(
            "{found} found, {expected} expected: nodes are numbered 0, 1, 2, .. from the first row down; 'tidy' numbers them again"
        );
        problems.cell(row.line, column::NODE, message);
    }
}

/// One row at work.
struct RowReader<'a, 'b> {
    cells: &'a CsvRow<'b>,
    /// How many rows there are.
    count: usize,
    problems: &'a mut Problems,
}

impl RowReader<'_, '_> {
    fn row(&mut self, heading: &Heading) -> Row {
        let line = self.cells.line;
        if self.cells.is_empty() {
            let message = "the row is empty; rows under the heading follow without a gap";
            self.problems.row(line, message);
        } else {
            self.expect_no_more(heading.columns);
        }
        let kind = self.kind();
        let own = self.own(kind.as_ref());
        Row {
            line,
            kind: kind.unwrap_or(RowKind::Plain),
            own,
            inside: self.inside(),
            next: self.next(),
            place: self.place(),
            tag: if heading.has_tag { self.tag() } else { 0 },
        }
    }

    fn say(&mut self, column: usize, message: impl Into<String>) {
        self.problems.cell(self.cells.line, column, message);
    }

    /// Text right of the last heading is most likely a successor that was set off by the separator.
    fn expect_no_more(&mut self, columns: usize) {
        let mut behind = self.cells.cells().enumerate().skip(columns);
        let Some((place, found)) = behind.find(|x| !x.1.is_empty()) else {
            return;
        };
        let message = format!(
            "{} stands right of the last heading; successors in 'next' are separated by blanks, and text with the separator in it is quoted",
            quoted(found)
        );
        self.problems.heading(self.cells.line, place, message);
    }

    /// None for what is not known; an empty row is told as such.
    fn kind(&mut self) -> Option<RowKind> {
        if self.cells.is_empty() {
            return None;
        }
        match RowKind::read(self.cells.cell(column::KIND)) {
            Ok(kind) => Some(kind),
            Err(message) => {
                self.say(column::KIND, message);
                None
            }
        }
    }

    fn own(&mut self, kind: Option<&RowKind>) -> Option<u8> {
        let text = self.cells.cell(column::CONSTRUCT);
        let number = construct_number(text);
        match (kind?, text) {
            (RowKind::Begin(_) | RowKind::End, "") => self.say(
                column::CONSTRUCT,
                "nothing found, the construct's own number expected: 0 to 47, the same in its begin row and its end row",
            ),
            (RowKind::Begin(_) | RowKind::End, _) if number.is_none() => {
                let message = format!("{} found, a number from 0 to 47 expected", quoted(text));
                self.say(column::CONSTRUCT, message);
            }
            (RowKind::Begin(_) | RowKind::End, _) => return number,
            (_, "") => {}
            (kind, _) => {
                let message = format!(
                    "{} found on a {}; only begins and ends have a number of their own. The construct around a node stands in 'inside'",
                    quoted(text),
                    kind.word()
                );
                self.say(column::CONSTRUCT, message);
            }
        }
        None
    }

    fn inside(&mut self) -> Option<u8> {
        let text = self.cells.cell(column::INSIDE);
        let number = construct_number(text);
        if number.is_none() && !text.is_empty() {
            let message = format!(
                "{} found, the number of the construct around, or nothing, expected",
                quoted(text)
            );
            self.say(column::INSIDE, message);
        }
        number
    }

    /// The successors, each once, rising.
    fn next(&mut self) -> Vec<u8> {
        let mut next = Vec::new();
        for word in self.cells.cell(column::NEXT).split_whitespace() {
            match self.successor(word, &next) {
                Ok(node) => next.push(node),
                Err(message) => self.say(column::NEXT, message),
            }
        }
        next.sort_unstable();
        next
    }

    fn successor(&self, word: &str, before: &[u8]) -> Result<u8, String> {
        let found = quoted(word);
        if word == "below" {
            return Err("'below' found; 'tidy' makes it the number of the row underneath".into());
        }
        let number: u32 = decimal(word)
            .ok_or_else(|| format!("{found} found, node numbers separated by blanks expected"))?;
        let node = u8::try_from(number)
            .ok()
            .filter(|&x| usize::from(x) < self.count);
        match node {
            None => Err(format!(
                "node {number} is named, and the last node is {}",
                self.count - 1
            )),
            Some(node) if before.contains(&node) => Err(format!("node {node} is named twice")),
            Some(node) => Ok(node),
        }
    }

    fn place(&mut self) -> String {
        let text = self.cells.cell(column::WHERE);
        if let Some(message) = misread(text) {
            self.say(column::WHERE, message);
        }
        text.into()
    }

    fn tag(&mut self) -> u16 {
        let text = self.cells.cell(column::TAG);
        let tag = decimal(text);
        if tag.is_none() && !text.is_empty() {
            let message = format!(
                "{} found, a tag from 0 to 65535 or nothing expected",
                quoted(text)
            );
            self.say(column::TAG, message);
        }
        tag.unwrap_or(0)
    }
}

fn construct_number(text: &str) -> Option<u8> {
    decimal(text).filter(|&x| usize::from(x) < MOST_CONSTRUCTS)
}

/// Why a text may not stand in `where`: a spreadsheet would take it for a formula; or it is a number alone,
/// which is what a successor becomes that was set off by the separator.
pub(crate) fn misread(text: &str) -> Option<String> {
    if let Some(first) = text.chars().next().filter(|x| "=+-@".contains(*x)) {
        return Some(format!(
            "the text begins with '{first}', which a spreadsheet would take for a formula"
        ));
    }
    let is_number = |x: char| x.is_ascii_digit() || x.is_whitespace();
    (!text.is_empty() && text.chars().all(is_number)).then(|| {
        format!(
            "{} is a number alone; successors stand in 'next', separated by blanks, and a source line has its file, as file.c:12",
            quoted(text)
        )
    })
}
