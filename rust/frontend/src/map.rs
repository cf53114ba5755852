//! What a recorded run has for the nodes of a region's chart: a text beside the table.
//!
//! ```text
//! bohrali-map 1
//! region FUNCTION DIRECTIVE
//! node FUNCTION:NODE:DEPTH ..    for each node of the chart, in order; 'pass' in place of 'node' where
//!                                a thread may come through it without an entry
//! end NODES                      0 where the region has no chart
//! ```

use crate::problem::Problem;
use crate::reader::{number, Cells, Outcome};
use std::fmt::Write;

const HEADER: &str = "bohrali-map 1";

/// A function's node, so many regions below the region. Functions are named by the marks of their flows.
#[derive(Clone, Copy, Debug, PartialEq, Eq, PartialOrd, Ord, Hash)]
pub(crate) struct Marked {
    pub function: u64,
    pub node: u32,
    pub depth: u8,
}

/// What a recorded run has for a node of a chart.
#[derive(Clone, Debug, PartialEq, Eq)]
pub(crate) struct Mapped {
    pub entries: Vec<Marked>,
    /// A thread may come through without an entry.
    pub is_passed: bool,
}

#[derive(Clone, Debug, Default, PartialEq, Eq)]
pub struct Map {
    /// The region's parallel.
    pub(crate) function: u64,
    pub(crate) directive: u32,
    /// By node of the chart.
    pub(crate) nodes: Vec<Mapped>,
}

impl Map {
    pub fn write(&self) -> String {
        let mut text = format!(
            "{HEADER}\nregion {:016x} {}\n",
            self.function, self.directive
        );
        for node in &self.nodes {
            text += if node.is_passed { "pass" } else { "node" };
            for x in &node.entries {
                write!(text, " {:016x}:{}:{}", x.function, x.node, x.depth).ok();
            }
            text.push('\n');
        }
        writeln!(text, "end {}", self.nodes.len()).ok();
        text
    }

    pub(crate) fn read(path: &str, text: &[u8]) -> Result<Map, Problem> {
        let text = std::str::from_utf8(text).unwrap_or("");
        let mut map = Map::default();
        let mut is_whole = false;
        for (row, line) in text.lines().enumerate() {
            let read = match is_whole {
                true => Err("a row stands behind 'end'".into()),
                false => map.row(row, line),
            };
            is_whole = read.map_err(|message| Problem {
                path: path.into(),
                row: Some(row + 1),
                message,
            })?;
        }
        match is_whole {
            true => Ok(map),
            false => Err(Problem::whole(
                path,
                "this is no map, or it is cut off: its last row is not 'end'",
            )),
        }
    }

    /// Takes a row; whether it is the last.
    fn row(&mut self, row: usize, line: &str) -> Outcome<bool> {
        let (first, mut cells) = Cells::of(line);
        match (row, first) {
            (0, _) if line == HEADER => {}
            (0, _) => return Err(format!("this is no map: '{HEADER}' is expected")),
            (1, "region") => {
                self.function = mark(cells.next("a mark")?)?;
                self.directive = number(cells.next("a directive")?)?;
                cells.end()?;
            }
            (2.., "node" | "pass") => {
                let mut node = Mapped {
                    entries: Vec::new(),
                    is_passed: first == "pass",
                };
                while let Some(cell) = cells.more() {
                    node.entries.push(marked(cell)?);
                }
                self.nodes.push(node);
            }
            (2.., "end") => {
                let (found, nodes) = (cells.number("a count")?, self.nodes.len());
                if found != nodes {
                    return Err(format!(
                        "{found} nodes are said to be there, and there are {nodes}"
                    ));
                }
                return cells.end().map(|()| true);
            }
            _ => return Err(format!("'{first}' is no row of a map here")),
        }
        Ok(false)
    }
}

fn mark(text: &str) -> Outcome<u64> {
    let is_mark = text.len() == 16 && text.bytes().all(|x| x.is_ascii_hexdigit());
    let parsed = is_mark
        .then(|| u64::from_str_radix(text, 16).ok())
        .flatten();
    parsed.ok_or_else(|| format!("'{text}' found, a mark of 16 digits expected"))
}

fn marked(cell: &str) -> Outcome<Marked> {
    let wrong = || format!("'{cell}' found, MARK:NODE:DEPTH expected");
    let mut parts = cell.split(':');
    match (parts.next(), parts.next(), parts.next(), parts.next()) {
        (Some(function), Some(node), Some(depth), None) => Ok(Marked {
            function: mark(function)?,
            node: number(node)?,
            depth: number(depth)?,
        }),
        _ => Err(wrong()),
    }
}
