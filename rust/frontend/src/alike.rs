//! Branches on which a never by phases rests.

use region::{Chart, NodeKind};
use std::collections::BTreeSet;

/// The nodes of which two ways lead to different next barriers. OpenMP demands that each barrier is met by
/// all threads of a team or by none, so all of them take such a branch alike.
pub(crate) fn branches(chart: &Chart) -> Vec<usize> {
    let nodes = chart.nodes.len();
    let mut next: Vec<Vec<usize>> = vec![Vec::new(); nodes];
    for &(from, to) in &chart.edges {
        next[usize::from(from)].push(to.into());
    }
    let mut ends: Vec<BTreeSet<usize>> = vec![BTreeSet::new(); nodes];
    let is_barrier = |x: usize| chart.nodes[x].kind == NodeKind::Barrier;
    let beyond = |ends: &[BTreeSet<usize>], to: usize| match is_barrier(to) {
        true => BTreeSet::from([to]),
        false => ends[to].clone(),
    };
    let mut changed = true;
    while changed {
        changed = false;
        for node in 0..nodes {
            let found: BTreeSet<usize> =
                next[node].iter().flat_map(|&x| beyond(&ends, x)).collect();
            if found.len() > ends[node].len() {
                (ends[node], changed) = (found, true);
            }
        }
    }
    let differs = |node: &usize| {
        let ways: BTreeSet<_> = next[*node].iter().map(|&x| beyond(&ends, x)).collect();
        ways.len() > 1
    };
    (0..nodes).filter(differs).collect()
}
