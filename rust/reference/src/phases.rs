//! Barrier-free paths (01's "barrier-free way"), and what follows from them: the starts and ends
//! of each node, the phase count, and which constructs return.

use crate::chart::Chart;

/// What the pair rules need to know of a chart as read for a region. A mask has bit b for barrier b.
#[derive(Clone, Debug)]
pub struct Phases {
    pub starts: Vec<u64>,
    pub ends: Vec<u64>,
    pub returns: Vec<bool>,
}

impl Phases {
    pub fn of(chart: &Chart) -> Phases {
        let successors = chart.successors();
        let paths: Vec<Vec<bool>> = (0..chart.nodes.len())
            .map(|from| barrier_free_paths(chart, &successors, from))
            .collect();
        let barriers = chart.barriers();
        let mask = |node: usize, joined: &dyn Fn(usize) -> bool| {
            let numbered = barriers.iter().enumerate();
            let marked = numbered.filter(|&(_, &x)| !chart.is_barrier(node) && joined(x));
            marked.fold(0, |mask, (number, _)| mask | 1u64 << number)
        };
        let nodes = 0..chart.nodes.len();
        Phases {
            starts: nodes.clone().map(|x| mask(x, &|b| paths[b][x])).collect(),
            ends: nodes.map(|x| mask(x, &|b| paths[x][b])).collect(),
            returns: (0..chart.constructs.len())
                .map(|c| paths[chart.end_of(c)][chart.begin_of(c)])
                .collect(),
        }
    }

    /// "A phase is a pair (start, end) that some node has; the phase count counts distinct pairs."
    pub fn count(&self) -> usize {
        let mut ends_of_start = [0u64; Chart::MOST_BARRIERS];
        for (starts, ends) in self.starts.iter().zip(&self.ends) {
            for (number, paired) in ends_of_start.iter_mut().enumerate() {
                if starts >> number & 1 == 1 {
                    *paired |= ends;
                }
            }
        }
        ends_of_start.iter().map(|x| x.count_ones() as usize).sum()
    }
}

/// The nodes to which a barrier-free path of one or more edges leads from `from`: "no node strictly
/// between its ends is a barrier", so a barrier is found but the search does not go on from it.
fn barrier_free_paths(chart: &Chart, successors: &[Vec<usize>], from: usize) -> Vec<bool> {
    let mut found = vec![false; chart.nodes.len()];
    let mut pending = vec![from];
    while let Some(node) = pending.pop() {
        for &next in &successors[node] {
            if !found[next] {
                found[next] = true;
                if !chart.is_barrier(next) {
                    pending.push(next);
                }
            }
        }
    }
    found
}
