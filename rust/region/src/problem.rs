//! What is wrong with a table: by row and column as a spreadsheet names them, what was found and what was
//! expected.

use crate::chart::Chart;
use bohrali::Refusal;
use std::error::Error;
use std::fmt;

/// One thing that is wrong. Bytes that are no table have no rows.
#[derive(Clone, Debug, PartialEq, Eq)]
pub struct Problem {
    pub row: Option<usize>,
    pub column: Option<String>,
    pub message: String,
}

impl fmt::Display for Problem {
    fn fmt(&self, f: &mut fmt::Formatter<'_>) -> fmt::Result {
        if let Some(row) = self.row {
            write!(f, "row {row}")?;
            if let Some(column) = &self.column {
                write!(f, ", column {column}")?;
            }
            write!(f, ": ")?;
        }
        write!(f, "{}", self.message)
    }
}

/// Why something is no chart that is admitted: the problems of one stage by rising row, and how many more
/// there are; and the library's refusal, where the stage was one that has a chart to hand over.
#[derive(Clone, Debug, PartialEq, Eq)]
pub struct Wrong {
    pub refusal: Option<Refusal>,
    pub problems: Vec<Problem>,
    pub more: usize,
}

impl Wrong {
    /// The most problems that are told.
    pub const MOST: usize = 20;

    /// One problem without a place.
    pub fn whole(refusal: Option<Refusal>, message: impl Into<String>) -> Wrong {
        let problem = Problem {
            row: None,
            column: None,
            message: message.into(),
        };
        Wrong {
            refusal,
            problems: vec![problem],
            more: 0,
        }
    }
}

impl fmt::Display for Wrong {
    fn fmt(&self, f: &mut fmt::Formatter<'_>) -> fmt::Result {
        let told: Vec<String> = self.problems.iter().map(Problem::to_string).collect();
        write!(f, "{}", told.join("\n"))?;
        match self.more {
            0 => Ok(()),
            more => write!(f, "\nand {more} more"),
        }
    }
}

impl Error for Wrong {}

/// The problems of the stage at work.
#[derive(Debug, Default)]
pub(crate) struct Problems(Vec<Problem>);

impl Problems {
    pub fn row(&mut self, row: usize, message: impl Into<String>) {
        self.add(row, None, message.into());
    }

    /// At a column, by heading and letter where every table has it.
    pub fn cell(&mut self, row: usize, column: usize, message: impl Into<String>) {
        self.add(row, Some(column_name(column)), message.into());
    }

    /// At a heading, by letter alone.
    pub fn heading(&mut self, row: usize, column: usize, message: impl Into<String>) {
        self.add(row, Some(column_letter(column)), message.into());
    }

    fn add(&mut self, row: usize, column: Option<String>, message: String) {
        self.0.push(Problem {
            row: Some(row),
            column,
            message,
        });
    }

    /// Ends a stage that has no chart yet.
    pub fn stop(&mut self) -> Result<(), Wrong> {
        self.stop_with(|| None)
    }

    /// Ends a stage about this chart: where there are problems, the library has a refusal for it.
    pub fn stop_for(&mut self, chart: &Chart) -> Result<(), Wrong> {
        self.stop_with(|| bohrali::admit(&chart.encode()).err())
    }

    fn stop_with(&mut self, refusal: impl FnOnce() -> Option<Refusal>) -> Result<(), Wrong> {
        if self.0.is_empty() {
            return Ok(());
        }
        let mut problems = std::mem::take(&mut self.0);
        problems.sort_by_key(|x| x.row);
        let more = problems.len().saturating_sub(Wrong::MOST);
        problems.truncate(Wrong::MOST);
        Err(Wrong {
            refusal: refusal(),
            problems,
            more,
        })
    }
}

/// The headings that every table has.
pub(crate) const HEADINGS: [&str; 6] = ["node", "kind", "construct", "inside", "next", "where"];

/// The places of the columns.
pub(crate) mod column {
    pub const NODE: usize = 0;
    pub const KIND: usize = 1;
    pub const CONSTRUCT: usize = 2;
    pub const INSIDE: usize = 3;
    pub const NEXT: usize = 4;
    pub const WHERE: usize = 5;
    pub const TAG: usize = 6;
}

fn column_name(column: usize) -> String {
    let letter = column_letter(column);
    match HEADINGS.get(column) {
        Some(heading) => format!("{heading} ({letter})"),
        None => letter,
    }
}

/// A to Z, then AA and on, as spreadsheets have it.
fn column_letter(column: usize) -> String {
    let last = char::from(b'A' + (column % 26) as u8);
    match column / 26 {
        0 => last.to_string(),
        more => column_letter(more - 1) + &last.to_string(),
    }
}

/// A text as it is shown in a message: in quotation marks, on one line, and not too long.
pub fn quoted(text: &str) -> String {
    const MOST: usize = 60;
    let mut shown: String = text.chars().take(MOST).flat_map(shown_char).collect();
    if text.chars().nth(MOST).is_some() {
        shown += "..";
    }
    format!("'{shown}'")
}

fn shown_char(letter: char) -> impl Iterator<Item = char> {
    let escaped = letter.is_control().then(|| letter.escape_default());
    let plain = escaped.is_none().then_some(letter);
    escaped.into_iter().flatten().chain(plain)
}
