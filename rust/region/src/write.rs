//! Tables as text.

use crate::chart::{Chart, NodeKind};
use crate::csv::written;
use crate::problem::HEADINGS;
use crate::rows::misread;
use crate::table::Table;

impl Table {
    /// The text of the table: commas, LF, and a column for tags where some tag is not 0.
    pub fn write(&self) -> String {
        let has_tags = self.chart.nodes.iter().any(|x| x.tag != 0);
        let mut headings = HEADINGS.to_vec();
        headings.extend(has_tags.then_some("tag"));
        let mut text = headings.join(",") + "\n";
        for (node, record) in (0u8..=u8::MAX).zip(&self.chart.nodes) {
            let tag = match record.tag {
                0 => String::new(),
                tag => tag.to_string(),
            };
            let mut cells = self.cells(node).to_vec();
            cells.extend(has_tags.then_some(tag));
            let cells: Vec<_> = cells.iter().map(|x| written(x)).collect();
            text += &(cells.join(",") + "\n");
        }
        text
    }

    fn cells(&self, node: u8) -> [String; 6] {
        let number = |x: Option<u8>| x.map_or(String::new(), |x| x.to_string());
        [
            node.to_string(),
            self.kind(node),
            number(own(&self.chart, node)),
            number(self.chart.scope(node)),
            joined(self.chart.successors(node)),
            place(self.place(node)),
        ]
    }
}

/// The construct that a node begins or ends.
fn own(chart: &Chart, node: u8) -> Option<u8> {
    let node = chart.node(node)?;
    let frames = matches!(node.kind, NodeKind::Begin | NodeKind::End);
    frames.then_some(node.construct)?
}

fn joined(nodes: impl Iterator<Item = u8>) -> String {
    let mut nodes: Vec<u8> = nodes.collect();
    nodes.sort_unstable();
    let words: Vec<String> = nodes.iter().map(u8::to_string).collect();
    words.join(" ")
}

/// A text as it may stand in `where`, whatever it was.
fn place(text: &str) -> String {
    let line: String = text
        .chars()
        .map(|x| if x.is_control() { ' ' } else { x })
        .collect();
    let line = line.trim();
    match misread(line) {
        Some(_) => format!("at {line}"),
        None => line.into(),
    }
}
