//! Source lines in the cells `where`, and the nodes that a place names.

use crate::names::decimal;
use crate::table::Table;

/// Lines of a source file: `file.c:12` or `file.c:12-15`.
#[derive(Clone, Debug, PartialEq, Eq)]
pub struct Lines {
    pub file: String,
    pub first: u32,
    pub last: u32,
}

impl Lines {
    /// Of a word that is nothing else.
    pub fn read(word: &str) -> Option<Lines> {
        let (file, lines) = word.rsplit_once(':')?;
        let (first, last) = lines.split_once('-').unwrap_or((lines, lines));
        let lines = Lines {
            // A drive's letter and its colon are no part of what is compared.
            file: file.rsplit(':').next()?.into(),
            first: decimal(first)?,
            last: decimal(last)?,
        };
        (!lines.file.is_empty() && 0 < lines.first && lines.first <= lines.last).then_some(lines)
    }

    /// Those that a cell names.
    pub fn in_cell(cell: &str) -> impl Iterator<Item = Lines> + '_ {
        let words = cell.split(|x: char| x.is_whitespace() || x == ',' || x == ';');
        words.filter_map(Lines::read)
    }

    /// Whether some line is common. A file may be named by the end of its path alone.
    pub fn shares(&self, other: &Lines) -> bool {
        let in_file = match other.file.strip_suffix(self.file.as_str()) {
            Some(folder) => folder.is_empty() || folder.ends_with(['/', '\\']),
            None => false,
        };
        in_file && self.first <= other.last && other.first <= self.last
    }
}

/// What a person names nodes by.
#[derive(Clone, Debug, PartialEq, Eq)]
pub enum Place {
    Node(usize),
    Source(Lines),
}

impl Place {
    pub fn read(word: &str) -> Option<Place> {
        let number = decimal(word).map(Place::Node);
        number.or_else(|| Lines::read(word).map(Place::Source))
    }

    /// The nodes of a table that it names, rising: a number that node, whether there is one or not; source
    /// lines all nodes that are there.
    pub fn nodes(&self, table: &Table) -> Vec<usize> {
        let named = |lines: &Lines, node: usize| {
            let cell = table.places.get(node).map_or("", String::as_str);
            Lines::in_cell(cell).any(|x| lines.shares(&x))
        };
        match self {
            Place::Node(node) => vec![*node],
            Place::Source(lines) => (0..table.places.len())
                .filter(|&node| named(lines, node))
                .collect(),
        }
    }
}
