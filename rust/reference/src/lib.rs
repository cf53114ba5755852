//! The plain second implementation of documents 01 and 02: one function a rule or row, no cleverness.
//! It decides whether two threads of one OpenMP team can be at two nodes of a chart together, in a
//! run that finishes. What a change request adds gets a module of its own, named after it.

pub mod answers;
pub mod builder;
pub mod calls;
pub mod chart;
pub mod distances;
pub mod edits;
pub mod first_edges;
pub mod known;
pub mod known_listings;
pub mod listing;
pub mod locks;
pub mod masked;
pub mod phases;
pub mod printing;
pub mod races;
pub mod refusals;
pub mod regions;
pub mod replay;
pub mod scopes;
pub mod sections;
pub mod sizes;
pub mod two_lists;
pub mod witnessed;

/// What Admit tells of an admitted chart: counts of the outermost region.
#[derive(Clone, Copy, Debug, PartialEq, Eq)]
pub struct Counts {
    pub nodes: usize,
    pub barriers: usize,
    pub phases: usize,
}

/// Admit: a refusal 1 to 10, or the counts.
pub fn admit(chart: &[u8]) -> Result<Counts, u8> {
    let chart = regions::read_outermost(chart)?;
    Ok(Counts {
        nodes: chart.nodes.len(),
        barriers: chart.barriers().len(),
        phases: phases::Phases::of(&chart).count(),
    })
}
