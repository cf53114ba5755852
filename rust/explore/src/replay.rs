//! Recorded runs (02, Note 11): traces of finished runs out of an exploration, and what the steps of a team say of any
//! trace.

use crate::search::{backward, forward};
use crate::team::{State, Team};
use charts::random::Random;
use reference::chart::Construct;
use reference::replay::{Outcome, Record};
use std::collections::HashMap;

/// A thread and the node that it steps to.
pub type Entry = [u8; 2];

/// The finished runs of a team: for each state on one, the fewest steps that are left.
pub struct Runs<'a> {
    team: &'a Team<'a>,
    left: HashMap<u128, u32>,
}

impl<'a> Runs<'a> {
    /// None if there are more than `most_states` states.
    pub fn of(team: &'a Team<'a>, most_states: usize) -> Option<Runs<'a>> {
        let reached = forward(team, most_states)?;
        let left = backward(team, &reached);
        let states = reached.states.iter().zip(left);
        let left = states.filter_map(|(state, left)| Some((state.packed(), left?)));
        Some(Runs {
            team,
            left: left.collect(),
        })
    }

    /// A finished run, drawn step by step, as a trace and the states after each step; none if there is none.
    /// After `most` steps it goes the shortest way.
    pub fn draw(&self, random: &mut Random, most: usize) -> Option<Vec<(Vec<Entry>, State)>> {
        let mut state = self.team.first_state();
        let mut left = *self.left.get(&state.packed())?;
        let mut run = Vec::new();
        while left > 0 {
            let hurry = run.len() >= most || random.percent(30);
            let steps = steps(self.team, &state).into_iter();
            let steps = steps.filter_map(|x| Some((*self.left.get(&x.1.packed())?, x)));
            let mut steps: Vec<_> = steps.filter(|(after, _)| !hurry || *after < left).collect();
            let (after, step) = steps.swap_remove(random.below(steps.len()));
            (left, state) = (after, step.1);
            run.push(step);
        }
        Some(run)
    }
}

/// Every step from a state, by its entries: one, or for an opening one for each thread.
fn steps(team: &Team, state: &State) -> Vec<(Vec<Entry>, State)> {
    let entry = |thread: usize, after: &State| [thread as u8, after.nodes[thread]];
    let mut opened = Vec::new();
    team.release(state, &mut opened);
    let released = |after: &State| (0..team.threads).map(|x| entry(x, after)).collect();
    let mut steps: Vec<_> = opened.into_iter().map(|x| (released(&x), x)).collect();
    for thread in 0..team.threads {
        let mut moved = Vec::new();
        team.thread_steps(state, thread, &mut moved);
        steps.extend(moved.into_iter().map(|x| (vec![entry(thread, &x)], x)));
    }
    steps
}

/// What the steps of a team say of a trace, and the state that it leads to. Some entries of an opening are legal as
/// long as a step begins with them.
pub fn judged(team: &Team, trace: &[Entry]) -> (Outcome, State) {
    let mut state = team.first_state();
    let mut from = 0;
    for index in 0..trace.len() {
        let read = &trace[from..=index];
        let mut begun = steps(team, &state);
        begun.retain(|(entries, _)| entries.starts_with(read));
        match begun.first() {
            None => return (Outcome::Forbidden(index), state),
            Some((entries, after)) if entries.len() == read.len() => {
                state = *after;
                from = index + 1;
            }
            Some(_) => (),
        }
    }
    match team.is_finished(&state) {
        true => (Outcome::Finished, state),
        false => (Outcome::Unfinished, state),
    }
}

/// Whether a thread's record shows what a state has of it; only the counts that a rule reads are kept there. Numbers of
/// constructs are the record's, by those of the team's chart.
pub fn is_shown(team: &Team, state: &State, thread: usize, record: &Record, own: &[usize]) -> bool {
    let kept = |here: usize| {
        let kind = team.chart.constructs[here].kind;
        [Construct::SINGLE, Construct::DO, Construct::SECTIONS].contains(&kind)
    };
    own.iter().enumerate().all(|(here, &whole)| {
        let count = u64::from(state.encounters[thread][here]);
        let taken = state.taken[thread] >> here & 1 == 1;
        (!kept(here) || record.counts[whole] == count) && record.taken[whole] == taken
    })
}
