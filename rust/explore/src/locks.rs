//! The team rules with locks added (02, Note 9), of all criticals or of some, and the comparison of synchronization
//! races with them. The answers are those for the rules without locks.

use crate::compare::{pairs, Bounds, Mismatch};
use crate::fault::Fault;
use crate::search::met;
use crate::team::{Constructs, State, Team};
use reference::answers::Rules;
use reference::chart::{Chart, Construct};
use reference::races::{Access, SYNCHRONIZATION_RACE};

impl<'a> Team<'a> {
    /// The same team under the rules with locks.
    pub fn with_locks(self) -> Team<'a> {
        self.with_locks_of(Constructs::MAX)
    }

    /// The same team under the rules with the locks of some criticals alone. The others are left as if there were no
    /// locks, and hold none.
    pub fn with_locks_of(mut self, criticals: Constructs) -> Team<'a> {
        self.locks = criticals;
        self
    }

    /// "A critical's begin is left only while no other thread is inside a critical of that name."
    pub(crate) fn is_free(&self, state: &State, thread: usize, critical: usize) -> bool {
        let locks = |c: usize| self.locks >> c & 1 == 1;
        if !locks(critical) || self.fault == Some(Fault::LockDropped) {
            return true;
        }
        let same_only = self.fault == Some(Fault::LockOfConstruct);
        let own = self.chart.constructs[critical];
        let blocks = |&c: &usize| {
            let Construct { kind, name, .. } = self.chart.constructs[c];
            kind == own.kind && name == own.name && locks(c) && (c == critical || !same_only)
        };
        let depth = match self.fault {
            Some(Fault::LockInnermost) => 1,
            _ => usize::MAX,
        };
        let is_inside = |x: usize| {
            let around = self.enclosing[usize::from(state.nodes[x])].iter();
            around.take(depth).any(blocks)
        };
        (0..self.threads).all(|other| other == thread || !is_inside(other))
    }
}

/// What was compared under the rules with locks.
#[derive(Clone, Copy, Debug, Default)]
pub struct Locked {
    /// Charts as read for a region.
    pub charts: usize,
    /// Pairs by the race of two writes to one variable there, and those of them that are met.
    pub races: [usize; 3],
    pub met: [usize; 3],
    /// Explorations given up for their number of states.
    pub skipped: usize,
}

/// In each region: "no finished run has two threads at a synchronization pair together".
pub fn compare_locked(
    chart: &Chart,
    bounds: &Bounds,
    fault: Option<Fault>,
    tally: &mut Locked,
) -> Result<(), Mismatch> {
    chart.regions().into_iter().try_for_each(|region| {
        let read = chart.read_for(region).chart;
        let encounters = bounds.first_encounters;
        let team = Team::of_numbers(&read, bounds.threads, encounters).with_fault(fault);
        let Some(met) = met(&team.with_locks(), bounds.most_states) else {
            tally.skipped += 1;
            return Ok(());
        };
        let rules = Rules::of(read);
        tally.charts += 1;
        for (a, b) in pairs(&rules.chart) {
            let race = rules.race(&write_at(a), &write_at(b));
            let is_met = met[a] >> b & 1 == 1;
            tally.races[usize::from(race)] += 1;
            tally.met[usize::from(race)] += usize::from(is_met);
            if is_met && race == SYNCHRONIZATION_RACE {
                return Err(Mismatch {
                    region,
                    a,
                    b,
                    finished: true,
                    answer: rules.answer(a, b),
                    encounters,
                });
            }
        }
        Ok(())
    })
}

/// A write at a node, to one variable for all.
fn write_at(node: usize) -> Access {
    Access {
        node,
        write: true,
        variable: 0,
    }
}
