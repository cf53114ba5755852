//! Whether a run is one by the team rules, told from the nodes that its threads are at.

use crate::team::Team;

/// A trace has the threads' nodes after each step. Gives the index of the first entry to which the
/// rules allow no step, or none if they allow all.
pub fn forbidden(team: &Team, trace: &[Vec<u8>]) -> Option<usize> {
    let mut states = vec![team.first_state()];
    for (index, places) in trace.iter().enumerate() {
        let mut next = Vec::new();
        for state in &states {
            team.steps(state, &mut next);
        }
        next.retain(|state| team.places(state) == places);
        if next.is_empty() {
            return Some(index);
        }
        states = next;
    }
    None
}
