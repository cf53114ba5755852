//! A region table: a chart with what a chart has no room for, where its nodes are in the source and the
//! words that name its criticals.

use crate::chart::Chart;
use crate::csv;
use crate::heading::Heading;
use crate::kind::node_text;
use crate::names::Names;
use crate::problem::Wrong;
use crate::{constructs, edges, nesting, rows};

/// A chart with the text of its rows.
#[derive(Clone, Debug, PartialEq, Eq)]
pub struct Table {
    pub chart: Chart,
    /// The cell `where` of each node.
    pub places: Vec<String>,
    pub names: Names,
}

impl Table {
    /// The table of a chart, with nothing said of its source.
    pub fn of(chart: Chart) -> Table {
        Table {
            places: vec![String::new(); chart.nodes.len()],
            chart,
            names: Names::default(),
        }
    }

    /// The table of a text, whose chart is admitted; or the problems of the first stage that has some:
    /// text, heading, cells, constructs, nesting, edges, paths.
    pub fn read(text: &[u8]) -> Result<Table, Wrong> {
        let lines = csv::rows(text)?;
        let heading = Heading::read(lines.first())?;
        let rows = rows::read(&heading, lines.get(1..).unwrap_or(&[]))?;
        let (chart, names) = constructs::chart(&rows)?;
        nesting::check(&chart, &rows)?;
        edges::check(&chart, &rows)?;
        edges::check_paths(&chart, &rows)?;
        // The stages know every refusal; whether they do is the library's to say.
        if let Err(refusal) = bohrali::admit(&chart.encode()) {
            let message = format!("{refusal}; no row was found to be wrong: this is a fault of the reader, please report it");
            return Err(Wrong::whole(Some(refusal), message));
        }
        Ok(Table {
            chart,
            places: rows.into_iter().map(|x| x.place).collect(),
            names,
        })
    }

    /// What a node is, by the word in its row.
    pub fn kind(&self, node: u8) -> String {
        node_text(&self.chart, &self.names, node)
    }

    /// The cell `where` of a node; empty where nothing is said.
    pub fn place(&self, node: u8) -> &str {
        self.places
            .get(usize::from(node))
            .map_or("", String::as_str)
    }
}
