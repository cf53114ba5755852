//! The shortest traces (02, Note 11) of finished runs, by the pairs that are met in them. An opening has an entry for each
//! thread, any other step has one.

use crate::search::{forward, Reached};
use crate::team::{State, Team};
use std::cmp::Reverse;
use std::collections::BinaryHeap;

/// By pair the fewest entries of a finished run that meets it; none where none does.
pub struct Shortest {
    nodes: usize,
    entries: Vec<Option<u32>>,
}

impl Shortest {
    /// Of all runs of a team, or none if there are more than `most_states` states.
    pub fn of(team: &Team, most_states: usize) -> Option<Shortest> {
        let reached = forward(team, most_states)?;
        let costs = costs(team, &reached);
        let finished = |&x: &usize| team.is_finished(&reached.states[x]);
        let finished = (0..reached.states.len()).filter(finished).collect();
        let turned: Vec<_> = costs
            .iter()
            .map(|&(from, to, cost)| (to, from, cost))
            .collect();
        let there = distances(reached.states.len(), &costs, vec![0]);
        let on = distances(reached.states.len(), &turned, finished);
        let nodes = team.chart.nodes.len();
        let mut shortest = Shortest {
            nodes,
            entries: vec![None; nodes * nodes],
        };
        for (state, (there, on)) in reached.states.iter().zip(there.into_iter().zip(on)) {
            if let (Some(there), Some(on)) = (there, on) {
                shortest.note(team.places(state), there + on);
            }
        }
        Some(shortest)
    }

    pub fn entries(&self, a: usize, b: usize) -> Option<u32> {
        self.entries[a * self.nodes + b]
    }

    fn note(&mut self, places: &[u8], length: u32) {
        for (thread, &a) in places.iter().enumerate() {
            for (other, &b) in places.iter().enumerate() {
                let pair = usize::from(a) * self.nodes + usize::from(b);
                let known = &mut self.entries[pair];
                if thread != other && known.is_none_or(|old| length < old) {
                    *known = Some(length);
                }
            }
        }
    }
}

/// Each step with the number of its entries: where all are at a barrier it is an opening.
fn costs(team: &Team, reached: &Reached) -> Vec<(usize, usize, u32)> {
    let gathered = |state: &State| {
        let places = team.places(state);
        let first = places[0];
        team.chart.is_barrier(first.into()) && places.iter().all(|&x| x == first)
    };
    let cost = |from: u32| match gathered(&reached.states[from as usize]) {
        true => team.threads as u32,
        false => 1,
    };
    let steps = reached.steps.iter();
    steps
        .map(|&(from, to)| (from as usize, to as usize, cost(from)))
        .collect()
}

/// The least cost from one of some states to each.
fn distances(count: usize, steps: &[(usize, usize, u32)], from: Vec<usize>) -> Vec<Option<u32>> {
    let mut next = vec![Vec::new(); count];
    for &(from, to, cost) in steps {
        next[from].push((to, cost));
    }
    let mut far = vec![None; count];
    let mut heap: BinaryHeap<_> = from.into_iter().map(|x| Reverse((0, x))).collect();
    while let Some(Reverse((known, x))) = heap.pop() {
        if far[x].is_some() {
            continue;
        }
        far[x] = Some(known);
        let open = next[x].iter().filter(|(to, _)| far[*to].is_none());
        heap.extend(open.map(|&(to, cost)| Reverse((known + cost, to))));
    }
    far
}
