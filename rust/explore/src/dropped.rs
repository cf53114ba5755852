//! Locks that are dropped: the bytes that say which can be, held to what teams do without locks and with those that
//! are left.

use crate::compare::Bounds;
use crate::fault::Fault;
use crate::search::{meetings, Met};
use crate::team::{Constructs, Team};
use reference::answers::Rules;
use reference::chart::{Chart, Construct};
use reference::locks::{Locks, DROPPABLE_ALWAYS, DROPPABLE_FINISHED, NEEDED};

/// What was compared.
#[derive(Clone, Copy, Debug, Default)]
pub struct Dropped {
    /// Charts as read for a region.
    pub charts: usize,
    /// Criticals by their byte.
    pub bytes: [usize; 3],
    /// Sets of locks that were dropped.
    pub sets: usize,
    /// Explorations given up for their number of states.
    pub skipped: usize,
}

/// Bytes that runs belie, by the numbers of the chart as read for a region.
#[derive(Clone, Copy, Debug)]
pub struct Belied {
    pub region: u8,
    pub said: Said,
    /// The criticals that locked.
    pub locks: Constructs,
    pub shared: Shared,
    pub encounters: u8,
}

/// The criticals by their bytes.
#[derive(Clone, Copy, Debug)]
pub struct Said {
    pub needed: Constructs,
    pub finished: Constructs,
    pub always: Constructs,
}

/// The criticals that finished runs share, and those that any run does: two threads are together, one inside this
/// critical and the other inside one of its name.
#[derive(Clone, Copy, Debug, PartialEq, Eq)]
pub struct Shared {
    pub finished: Constructs,
    pub all: Constructs,
}

/// In each region: without locks, finished runs share just the criticals whose locks are needed, and all runs share
/// these and the ones that finished runs do not need. With locks dropped that can be, one, several or all, no finished
/// run shares a critical; and no run at all where each of them can be dropped always.
pub fn compare_dropped(
    chart: &Chart,
    bounds: &Bounds,
    fault: Option<Fault>,
    tally: &mut Dropped,
) -> Result<(), Belied> {
    chart.regions().into_iter().try_for_each(|region| {
        let read = chart.read_for(region).chart;
        let team =
            |encounters: u8| Team::of_numbers(&read, bounds.threads, encounters).with_fault(fault);
        let said = Said::of(&team(0), fault);
        let belied = |(locks, shared, encounters)| Belied {
            region,
            said,
            locks,
            shared,
            encounters,
        };
        let compared = said.compare(team, bounds).map_err(belied)?;
        match compared {
            Some(sets) => tally.add(&said, sets),
            None => tally.skipped += 1,
        }
        Ok(())
    })
}

/// The criticals that locked, those that were shared then, and the bound on counts.
type Run = (Constructs, Shared, u8);

impl Said {
    fn of(team: &Team, fault: Option<Fault>) -> Said {
        let mut rules = Rules::of(team.chart.clone());
        if let Some(fault) = fault {
            fault.plant(&mut rules);
        }
        let locks = Locks::of(rules);
        let byte = |c: usize| match (locks.byte(team.teams(), c), fault) {
            (DROPPABLE_FINISHED, Some(Fault::UnfinishedForgotten)) => DROPPABLE_ALWAYS,
            (byte, _) => byte,
        };
        let [needed, finished, always] = [NEEDED, DROPPABLE_FINISHED, DROPPABLE_ALWAYS]
            .map(|wanted| team.constructs(|c| byte(c) == wanted));
        Said {
            needed,
            finished,
            always,
        }
    }

    /// Gives the number of sets that were dropped; none where there are too many states.
    fn compare<'a>(
        &self,
        team: impl Fn(u8) -> Team<'a>,
        bounds: &Bounds,
    ) -> Result<Option<usize>, Run> {
        let shared = |locks: Constructs, encounters: u8| {
            team(encounters)
                .with_locks_of(locks)
                .shared(bounds.most_states)
        };
        let due = Shared {
            finished: self.needed,
            all: self.needed | self.finished,
        };
        let mut encounters = bounds.first_encounters;
        loop {
            let Some(shared) = shared(0, encounters) else {
                return Ok(None);
            };
            if shared == due {
                break;
            }
            if !shared.is_within(due) || encounters == bounds.most_encounters {
                return Err((0, shared, encounters));
            }
            encounters += 1;
        }
        let left = self.left();
        for &locks in &left {
            let Some(shared) = shared(locks, encounters) else {
                return Ok(None);
            };
            if !shared.is_within(self.allowed(locks)) {
                return Err((locks, shared, encounters));
            }
        }
        Ok(Some(left.len()))
    }

    /// The locks that are left where some that can be are dropped: all sets that have the needed ones.
    fn left(&self) -> Vec<Constructs> {
        let criticals = self.needed | self.finished | self.always;
        let sets = 0..=criticals;
        sets.filter(|set| set & !criticals == 0 && set & self.needed == self.needed)
            .collect()
    }

    /// What may be shared under the locks that are left: nothing by finished runs, and nothing at all but where a lock is
    /// dropped of which the bytes speak for finished runs alone.
    fn allowed(&self, locks: Constructs) -> Shared {
        let unfinished = self.finished & !locks != 0;
        Shared {
            finished: 0,
            all: if unfinished { Constructs::MAX } else { 0 },
        }
    }
}

impl Shared {
    fn is_within(self, other: Shared) -> bool {
        self.finished & !other.finished == 0 && self.all & !other.all == 0
    }
}

impl Dropped {
    fn add(&mut self, said: &Said, sets: usize) {
        self.charts += 1;
        self.sets += sets;
        for (count, set) in self
            .bytes
            .iter_mut()
            .zip([said.needed, said.finished, said.always])
        {
            *count += set.count_ones() as usize;
        }
    }
}

impl Team<'_> {
    fn shared(&self, most_states: usize) -> Option<Shared> {
        let met = meetings(self, most_states)?;
        let [finished, all] = [&met.finished, &met.all].map(|met| self.shared_by(met));
        Some(Shared { finished, all })
    }

    fn shared_by(&self, met: &Met) -> Constructs {
        let nodes = || 0..self.chart.nodes.len();
        let name = |c: usize| self.chart.constructs[c].name;
        self.constructs(|c| {
            let inside = nodes().filter(|&x| self.criticals(x).any(|own| own == c));
            let beside = |x: usize| nodes().filter(move |&y| met[x] >> y & 1 == 1);
            let mut others = inside.flat_map(beside).flat_map(|y| self.criticals(y));
            others.any(|other| name(other) == name(c))
        })
    }

    /// The criticals that a node is inside.
    fn criticals(&self, node: usize) -> impl Iterator<Item = usize> + '_ {
        let around = self.enclosing[node].iter().copied();
        around.filter(|&c| self.kind(c) == Construct::CRITICAL)
    }

    fn constructs(&self, wanted: impl Fn(usize) -> bool) -> Constructs {
        let all = 0..self.chart.constructs.len();
        all.filter(|&c| wanted(c)).fold(0, |set, c| set | 1 << c)
    }
}
