//! A run as a trace, and its steps by this crate's own rules: for tables, and to tell a planner's mistake early.

use crate::rules::State;
use crate::view::{Role, View};
use bohrali::layout::ConstructKind;

/// The most threads that a trace may have (02, Note 11).
pub const MOST_THREADS: usize = 8;

/// A thread, and the node that it steps to.
#[derive(Clone, Copy, Debug, PartialEq, Eq)]
pub struct Entry {
    pub thread: u8,
    pub node: u8,
}

/// A finished run in which two threads stand at two nodes together, as a planner has it. It is not certified.
#[derive(Clone, Debug, PartialEq, Eq)]
pub struct Draft {
    pub threads: usize,
    pub trace: Vec<Entry>,
    /// The number of entries after which the two stand there, for the first time.
    pub met_after: usize,
    /// The thread at the first node and that at the second.
    pub at: [usize; 2],
    /// Whether no thread goes into a critical while another is inside one of that name. Answers do not look at
    /// locks.
    pub keeps_locks: bool,
}

impl Draft {
    /// The trace in the form of Note 11: two bytes an entry.
    pub fn bytes(&self) -> Vec<u8> {
        let entries = self.trace.iter();
        entries.flat_map(|x| [x.thread, x.node]).collect()
    }

    /// The run of a trace, if it finishes and has two threads at the two nodes.
    pub fn of(view: &View, threads: usize, trace: Vec<Entry>, a: usize, b: usize) -> Option<Draft> {
        let (mut met, mut finished, mut keeps_locks) = (None, false, true);
        let mut before = vec![view.start; threads];
        let look = |mover: Mover, entries: usize, state: &State| {
            met = met.or_else(|| state.together(a, b).map(|at| (entries, at)));
            finished = state.all_at(view.finish);
            if let Mover::Thread(thread) = mover {
                keeps_locks &= !breaks_lock(view, state, thread, before[thread]);
            }
            before.clone_from(&state.at);
        };
        follow(view, threads, &trace, look).ok()?;
        let (met_after, at) = met?;
        finished.then_some(Draft {
            threads,
            trace,
            met_after,
            at,
            keeps_locks,
        })
    }
}

/// Who steps: one thread, or at a release all.
#[derive(Clone, Copy, Debug, PartialEq, Eq)]
pub enum Mover {
    Thread(usize),
    Released { barrier: usize },
}

/// A step of a run.
#[derive(Clone, Debug)]
pub struct Step {
    pub mover: Mover,
    /// Entries of the trace up to here.
    pub entries: usize,
    /// The state that it leaves.
    pub state: State,
}

/// The steps of a trace, or the index of the first entry that is forbidden.
pub fn steps(view: &View, threads: usize, trace: &[Entry]) -> Result<Vec<Step>, usize> {
    let mut steps = Vec::new();
    follow(view, threads, trace, |mover, entries, state| {
        let state = state.clone();
        steps.push(Step {
            mover,
            entries,
            state,
        });
    })?;
    Ok(steps)
}

/// Looks at each step of a trace: who steps, the entries up to there, and the state that it leaves. Entries of a
/// release that is not whole are no step. Else the index of the first entry that is forbidden.
pub fn follow(
    view: &View,
    threads: usize,
    trace: &[Entry],
    mut look: impl FnMut(Mover, usize, &State),
) -> Result<(), usize> {
    let mut state = State::fresh(threads, view.start);
    let mut chosen = Vec::new();
    for (index, entry) in trace.iter().enumerate() {
        let (thread, to) = (usize::from(entry.thread), usize::from(entry.node));
        let mover = match state.gathered(view) {
            Some(barrier) => {
                if thread != chosen.len() || !view.next[barrier].contains(&to) {
                    return Err(index);
                }
                chosen.push(to);
                if chosen.len() < threads {
                    continue;
                }
                state = State::fresh(threads, view.start);
                state.at = std::mem::take(&mut chosen);
                Mover::Released { barrier }
            }
            None if thread < threads && state.may_step(view, thread, to) => {
                state.step(view, thread, to);
                Mover::Thread(thread)
            }
            None => return Err(index),
        };
        look(mover, index + 1, &state);
    }
    Ok(())
}

/// Whether a thread that steps from a node goes into a critical while another is inside one of that name, before
/// the step or behind it: the others stand still.
fn breaks_lock(view: &View, state: &State, thread: usize, from: usize) -> bool {
    match view.role[from] {
        Role::Begin(c) if view.kind(c) == ConstructKind::Critical => {
            !state.is_unlocked(view, thread, view.constructs[c].name)
        }
        _ => false,
    }
}

/// The first step by which a thread goes into a critical while another is inside one of that name.
pub fn lock_broken(view: &View, threads: usize, steps: &[Step]) -> Option<usize> {
    let first = State::fresh(threads, view.start);
    let before = std::iter::once(&first).chain(steps.iter().map(|x| &x.state));
    let breaks = |(step, before): (&Step, &State)| match step.mover {
        Mover::Released { .. } => false,
        Mover::Thread(thread) => breaks_lock(view, before, thread, before.at[thread]),
    };
    steps.iter().zip(before).position(breaks)
}
