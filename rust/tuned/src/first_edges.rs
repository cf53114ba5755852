//! The one search from all barriers by itself, with the nodes' first edges found ahead and with each looked
//! up: the calls find them ahead, and the benchmark measures what that brings.

use crate::by_node::{ByNode, FoundAhead, LookedUp};
use crate::levels::{search_by, Levels, AT_BARRIER, FAR};
use crate::nodes::BARRIER;
use crate::tables::Tables;

/// What the search starts from: the tables and the barriers of a chart.
pub struct Searched<'a> {
    tables: Tables<'a>,
    barriers: Vec<u8>,
}

impl<'a> Searched<'a> {
    /// The chart is an admitted one; of others rows 1 to 4 alone are refused.
    pub fn of(chart: &'a [u8]) -> Result<Searched<'a>, u8> {
        let tables = Tables::of(chart)?;
        let nodes = (0u8..).zip(tables.nodes);
        let barriers = nodes.filter(|(_, record)| record[0] == BARRIER);
        let barriers = barriers.map(|(node, _)| node).collect();
        Ok(Searched { tables, barriers })
    }

    /// Levels, with all places found before the first barrier is searched from.
    #[inline(never)]
    pub fn found_ahead(&self, levels: &mut Levels) {
        self.fill(&FoundAhead::of(&self.tables), levels);
    }

    /// Levels, with a node's place looked up when the search comes to it.
    #[inline(never)]
    pub fn looked_up(&self, levels: &mut Levels) {
        let edges = self.tables.edges;
        self.fill(&LookedUp { edges }, levels);
    }

    #[inline(always)]
    fn fill(&self, by_node: &impl ByNode<'a>, levels: &mut Levels) {
        levels.fill(FAR);
        search_by(by_node, &self.tables, &self.barriers, levels);
        for &barrier in &self.barriers {
            levels[usize::from(barrier)] = AT_BARRIER;
        }
    }
}
