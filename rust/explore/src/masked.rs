//! The team rule of masked constructs (02, Note 5), of which edition 1's masters are those of filter 0.

use crate::fault::Fault;
use crate::team::{Team, MOST_THREADS};
use reference::chart::{Chart, Construct};

/// Thread numbers that suffice for every pair of a chart: its filters, and others until there are two.
/// None if they are more than an exploration takes.
pub fn large_enough(chart: &Chart) -> Option<Vec<u16>> {
    let masked = chart.constructs.iter();
    let masked = masked.filter(|x| x.kind == Construct::MASTER);
    let mut numbers: Vec<u16> = masked.map(|x| x.filter).collect();
    numbers.sort_unstable();
    numbers.dedup();
    let others = (0..).filter(|x| !numbers.contains(x));
    let missing = 2usize.saturating_sub(numbers.len());
    let others: Vec<u16> = others.take(missing).collect();
    numbers.extend(others);
    (numbers.len() <= MOST_THREADS).then_some(numbers)
}

impl Team<'_> {
    /// Whether a thread may leave a masked begin by an edge, and whether straight to the end: "only the
    /// thread of that number goes in", and it does; "any other goes straight to the end node".
    pub(crate) fn masked_steps(&self, thread: usize, masked: usize) -> (bool, bool) {
        let goes_in = self.numbers[thread] == self.chart.constructs[masked].filter;
        let any_enters = self.fault == Some(Fault::AnyThreadEnters);
        let may_skip = self.fault == Some(Fault::MaskedSkipped);
        (goes_in || any_enters, !goes_in || may_skip)
    }
}
