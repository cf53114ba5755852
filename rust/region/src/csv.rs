//! Text of rows and cells, as spreadsheets save it.

use crate::problem::{Problems, Wrong};
use bohrali::limits::MOST_NODES;
use std::borrow::Cow;
use std::str;

/// The most bytes of a row.
const LONGEST_ROW: usize = 8192;

/// The most rows that are kept: the heading, and one row more than a table has.
const MOST_ROWS: usize = MOST_NODES + 2;

/// A row that is not beyond the last one with text in it.
#[derive(Debug)]
pub(crate) struct CsvRow<'a> {
    pub line: usize,
    cells: Vec<Cow<'a, str>>,
}

impl CsvRow<'_> {
    /// A cell without the blanks around it; cells right of the last one are empty.
    pub fn cell(&self, column: usize) -> &str {
        self.cells.get(column).map_or("", |x| x.trim())
    }

    pub fn cells(&self) -> impl Iterator<Item = &str> {
        (0..self.cells.len()).map(|x| self.cell(x))
    }

    pub fn is_empty(&self) -> bool {
        self.cells().all(str::is_empty)
    }
}

/// The rows of a text, without those at the end that are empty.
pub(crate) fn rows(bytes: &[u8]) -> Result<Vec<CsvRow<'_>>, Wrong> {
    let text = text(bytes)?;
    let separator = separator(text);
    let mut problems = Problems::default();
    let mut rows: Vec<CsvRow> = Vec::new();
    for (line, text) in (1..).zip(lines(text)) {
        let row = CsvRow {
            line,
            cells: cells(line, text, separator, &mut problems),
        };
        if row.is_empty() {
            continue;
        }
        let above = rows.last().map_or(1, |x| x.line + 1);
        rows.extend((above..line).take(MOST_ROWS).map(|line| CsvRow {
            line,
            cells: Vec::new(),
        }));
        rows.push(row);
        if rows.len() >= MOST_ROWS {
            break;
        }
    }
    problems.stop()?;
    Ok(rows)
}

/// The text behind a byte order mark.
fn text(bytes: &[u8]) -> Result<&str, Wrong> {
    if bytes.starts_with(&[0xFF, 0xFE]) || bytes.starts_with(&[0xFE, 0xFF]) {
        let message = "the text is UTF-16, UTF-8 expected: save the sheet as 'CSV UTF-8'";
        return Err(Wrong::whole(None, message));
    }
    match str::from_utf8(bytes) {
        Ok(text) => Ok(text.strip_prefix('\u{feff}').unwrap_or(text)),
        Err(error) => {
            let before = String::from_utf8_lossy(&bytes[..error.valid_up_to()]);
            let mut problems = Problems::default();
            let message = "a letter here is not UTF-8: save the sheet as 'CSV UTF-8'";
            problems.row(lines(&before).count(), message);
            problems.stop().map(|()| "")
        }
    }
}

/// Lines end in LF, CRLF or CR.
fn lines(text: &str) -> impl Iterator<Item = &str> {
    let ended = text.split('\n');
    ended.flat_map(|x| x.strip_suffix('\r').unwrap_or(x).split('\r'))
}

/// What stands behind the first heading.
fn separator(text: &str) -> char {
    let heading = lines(text).next().unwrap_or("");
    let is_separator = |x: &char| matches!(x, ',' | ';' | '\t');
    heading.chars().find(is_separator).unwrap_or(',')
}

fn cells<'a>(
    line: usize,
    text: &'a str,
    separator: char,
    problems: &mut Problems,
) -> Vec<Cow<'a, str>> {
    if text.len() > LONGEST_ROW {
        let message = format!(
            "the row has {} bytes; {LONGEST_ROW} are the most",
            text.len()
        );
        problems.row(line, message);
        return Vec::new();
    }
    let mut cells = Vec::new();
    let mut rest = Some(text);
    while let Some(text) = rest {
        match first_cell(text, separator) {
            Ok((cell, behind)) => {
                cells.push(cell);
                rest = behind;
            }
            Err(message) => {
                problems.cell(line, cells.len(), message);
                return Vec::new();
            }
        }
    }
    cells
}

/// The first cell, and what stands behind its separator, if it has one.
fn first_cell(text: &str, separator: char) -> Result<(Cow<'_, str>, Option<&str>), &'static str> {
    let blank = |x: char| x != separator && x.is_whitespace();
    let begun = text.trim_start_matches(blank);
    let Some(inner) = begun.strip_prefix('"') else {
        return Ok(match begun.split_once(separator) {
            Some((cell, behind)) => (Cow::Borrowed(cell), Some(behind)),
            None => (Cow::Borrowed(begun), None),
        });
    };
    let open = "a quotation mark is opened and not closed in this row";
    let end = closing(inner).ok_or(open)?;
    let cell = Cow::Owned(inner[..end].replace("\"\"", "\""));
    let behind = inner[end + 1..].trim_start_matches(blank);
    match behind.strip_prefix(separator) {
        None if !behind.is_empty() => Err("text after a closing quotation mark"),
        rest => Ok((cell, rest)),
    }
}

/// Where the quotation mark is that closes a cell: one that is not doubled.
fn closing(inner: &str) -> Option<usize> {
    let mut from = 0;
    loop {
        let at = from + inner[from..].find('"')?;
        if !inner[at + 1..].starts_with('"') {
            return Some(at);
        }
        from = at + 2;
    }
}

/// A cell as it is written: in quotation marks where it has to be.
pub(crate) fn written(cell: &str) -> Cow<'_, str> {
    match cell.contains([',', ';', '\t', '"']) {
        true => Cow::Owned(format!("\"{}\"", cell.replace('"', "\"\""))),
        false => Cow::Borrowed(cell),
    }
}
