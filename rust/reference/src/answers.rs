//! The pair rules: the answer for two non-barrier nodes is the number of the first rule that keeps
//! two threads of one team from being there together, or 0 (01's "may meet").

use crate::chart::{Chart, Construct};
use crate::phases::Phases;

/// One rule: whether it applies to two nodes.
type Rule = fn(&Rules, usize, usize) -> bool;

/// A chart as read for a region with its phases and, for each node, the constructs around it; for answer 5 the
/// sections that it is inside, their begins and ends counted as inside.
#[derive(Clone, Debug)]
pub struct Rules {
    pub chart: Chart,
    pub phases: Phases,
    pub in_section: Vec<Vec<usize>>,
    enclosing: Vec<Vec<usize>>,
}

impl Rules {
    pub const CONCURRENT: u8 = 0;
    /// What Sheet writes where either node is a barrier or outside the region.
    pub const BARRIER: u8 = 255;

    pub fn of(chart: Chart) -> Rules {
        let nodes = 0..chart.nodes.len();
        Rules {
            phases: Phases::of(&chart),
            in_section: nodes.clone().map(|x| chart.in_section(x)).collect(),
            enclosing: nodes.map(|x| chart.enclosing(x)).collect(),
            chart,
        }
    }

    /// "The answer for nodes A and B, which may be equal, is the first that applies."
    pub fn answer(&self, a: usize, b: usize) -> u8 {
        let rules: [(u8, Rule); 5] = [
            (1, Rules::no_common_phase),
            (2, Rules::both_in_masked_of_one_filter),
            (3, Rules::both_in_one_single),
            (4, Rules::both_in_ordereds_of_one_do),
            (5, Rules::both_in_one_section),
        ];
        let first = rules.into_iter().find(|(_, applies)| applies(self, a, b));
        first.map_or(Rules::CONCURRENT, |(number, _)| number)
    }

    /// 1: "no common start, or no common end".
    fn no_common_phase(&self, a: usize, b: usize) -> bool {
        let Phases { starts, ends, .. } = &self.phases;
        starts[a] & starts[b] == 0 || ends[a] & ends[b] == 0
    }

    /// 3: "both inside one single, which does not return".
    fn both_in_one_single(&self, a: usize, b: usize) -> bool {
        self.around(a, Construct::SINGLE)
            .any(|single| self.enclosing[b].contains(&single) && !self.phases.returns[single])
    }

    /// 4: "both inside ordered constructs of one do, which does not return".
    fn both_in_ordereds_of_one_do(&self, a: usize, b: usize) -> bool {
        self.dos_of_ordereds(a)
            .any(|own| self.dos_of_ordereds(b).any(|x| x == own) && !self.phases.returns[own])
    }

    /// 5: "both inside one section, its begin and end counted as inside, whose sections construct
    /// does not return".
    fn both_in_one_section(&self, a: usize, b: usize) -> bool {
        self.in_section[a].iter().any(|section| {
            let sections = usize::from(self.chart.constructs[*section].parent);
            self.in_section[b].contains(section) && !self.phases.returns[sections]
        })
    }

    /// The constructs of one kind that a node is inside.
    pub(crate) fn around(&self, node: usize, kind: u8) -> impl Iterator<Item = usize> + '_ {
        let is_kind = move |&c: &usize| self.chart.constructs[c].kind == kind;
        self.enclosing[node].iter().copied().filter(is_kind)
    }

    /// The dos of whose ordereds a node is inside; an ordered's parent is its do.
    fn dos_of_ordereds(&self, node: usize) -> impl Iterator<Item = usize> + '_ {
        self.around(node, Construct::ORDERED)
            .map(|ordered| self.chart.constructs[ordered].parent.into())
    }
}
