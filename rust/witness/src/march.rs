//! A whole team on its way from barrier to barrier: in each interval thread after thread, from one release to the
//! barrier of the next.

use crate::rules::State;
use crate::run::Entry;
use crate::view::{Role, View};
use crate::walk::Walk;
use std::collections::HashMap;

/// The steps of one interval between releases, thread and node; each thread's first is its choice at the release.
#[derive(Clone, Debug)]
pub struct Interval {
    pub state: State,
    pub steps: Vec<(usize, usize)>,
}

/// How a thread is to walk.
#[derive(Clone, Copy, Default)]
pub struct Manner {
    pub avoid: Option<usize>,
    pub locks: bool,
}

impl Interval {
    /// All threads at a barrier, with nothing counted: as after its release, but for what they choose.
    pub fn from(threads: usize, barrier: usize) -> Interval {
        Interval {
            state: State::fresh(threads, barrier),
            steps: Vec::new(),
        }
    }

    /// A thread walks to a node, which is not its own unless that is the barrier that it starts at.
    pub fn walk(&mut self, view: &View, thread: usize, goal: usize, manner: Manner) -> Option<()> {
        let walk = Walk {
            view,
            state: &self.state,
            thread,
            from: self.state.at[thread],
            into: view.held[goal],
            avoid: manner.avoid,
            locks: manner.locks,
        };
        for to in walk.path(goal)? {
            self.state.step(view, thread, to);
            self.steps.push((thread, to));
        }
        Some(())
    }

    /// Its entries: first the release, in thread order, then the other steps. Until its own walk a thread stands
    /// where the release left it: outside all constructs, and in nobody's way.
    pub fn entries(&self) -> Option<Vec<Entry>> {
        let mut chosen = vec![None; self.state.threads()];
        let mut later = Vec::new();
        for &(thread, node) in &self.steps {
            let entry = Entry {
                thread: u8::try_from(thread).ok()?,
                node: u8::try_from(node).ok()?,
            };
            match chosen[thread] {
                None => chosen[thread] = Some(entry),
                Some(_) => later.push(entry),
            }
        }
        let mut entries: Vec<Entry> = chosen.into_iter().collect::<Option<_>>()?;
        entries.append(&mut later);
        Some(entries)
    }
}

/// By barrier, by its place among the barriers: the fewest entries, about, and the barrier before or behind it.
type Route = Vec<Option<(u32, usize)>>;

/// The marches of a team of one size.
pub struct Marches<'a> {
    view: &'a View<'a>,
    threads: usize,
    /// By two barriers, fewest steps in one interval, about: of the first thread, and of one that comes later.
    first: Vec<Vec<Option<u32>>>,
    later: Vec<Vec<Option<u32>>>,
    from_start: Route,
    to_finish: Route,
    intervals: HashMap<(usize, usize), Option<Vec<Entry>>>,
}

impl<'a> Marches<'a> {
    pub fn new(view: &'a View<'a>, threads: usize) -> Marches<'a> {
        let fresh = State::fresh(threads, view.start);
        let mut passed = fresh.clone();
        passed.encounters[0].fill(1); // thread 0 has been everywhere
        let table = |state: &State, thread: usize| -> Vec<Vec<Option<u32>>> {
            let row = |&from: &usize| {
                let steps = plain_walk(view, state, thread, from).distances();
                view.barriers.iter().map(|&to| steps[to]).collect()
            };
            view.barriers.iter().map(row).collect()
        };
        let mut marches = Marches {
            view,
            threads,
            first: table(&fresh, 0),
            later: table(&passed, threads - 1),
            from_start: Vec::new(),
            to_finish: Vec::new(),
            intervals: HashMap::new(),
        };
        marches.from_start = marches.route(view.start, |marches, known, new| {
            marches.entries(known, new)
        });
        marches.to_finish = marches.route(view.finish, |marches, known, new| {
            marches.entries(new, known)
        });
        marches
    }

    /// The entries of an interval between two barriers, about.
    fn entries(&self, from: usize, to: usize) -> Option<u32> {
        let others = self.threads as u32 - 1;
        Some(self.first[from][to]? + others * self.later[from][to]?)
    }

    /// Fewest entries of threads that follow two others through an interval, about.
    pub fn followers(&self, from: usize, to: usize) -> Option<u32> {
        let others = self.threads as u32 - 2;
        Some(others * self.later[from][to]?)
    }

    /// The shortest march between one barrier and each, by Dijkstra; `cost` is that of an interval between a
    /// barrier whose march is known and another.
    fn route(&self, end: usize, cost: fn(&Self, usize, usize) -> Option<u32>) -> Route {
        let barriers = &self.view.barriers;
        let mut best: Route = barriers
            .iter()
            .map(|&x| (x == end).then_some((0, 0)))
            .collect();
        let mut settled = vec![false; barriers.len()];
        let open = |best: &Route, settled: &[bool]| {
            let waiting = (0..best.len()).filter(|&i| !settled[i]);
            waiting.filter_map(|i| Some((best[i]?.0, i))).min()
        };
        while let Some((far, known)) = open(&best, &settled) {
            settled[known] = true;
            for (new, best) in best.iter_mut().enumerate() {
                let further = cost(self, known, new).map(|more| far + more);
                if let Some(far) = further.filter(|&far| best.is_none_or(|(old, _)| far < old)) {
                    *best = Some((far, known));
                }
            }
        }
        best
    }

    /// Fewest entries from Start to a barrier, and from it to Finish, about.
    pub fn before(&self, barrier: usize) -> Option<u32> {
        self.from_start[barrier].map(|x| x.0)
    }

    pub fn behind(&self, barrier: usize) -> Option<u32> {
        self.to_finish[barrier].map(|x| x.0)
    }

    /// The entries of the march from Start to a barrier.
    pub fn march_to(&mut self, to: usize) -> Option<Vec<Entry>> {
        let mut legs = Vec::new();
        let mut at = to;
        while self.view.barriers[at] != self.view.start {
            let before = self.from_start[at]?.1;
            legs.push((before, at));
            at = before;
        }
        legs.reverse();
        self.concat(legs)
    }

    /// The entries of the march from a barrier to Finish.
    pub fn march_from(&mut self, from: usize) -> Option<Vec<Entry>> {
        let mut legs = Vec::new();
        let mut at = from;
        while self.view.barriers[at] != self.view.finish {
            let behind = self.to_finish[at]?.1;
            legs.push((at, behind));
            at = behind;
        }
        self.concat(legs)
    }

    fn concat(&mut self, legs: Vec<(usize, usize)>) -> Option<Vec<Entry>> {
        let mut entries = Vec::new();
        for (from, to) in legs {
            entries.extend(self.interval(from, to)?);
        }
        Some(entries)
    }

    /// The entries of the interval between two barriers.
    fn interval(&mut self, from: usize, to: usize) -> Option<Vec<Entry>> {
        let known = self.intervals.get(&(from, to)).cloned();
        known.unwrap_or_else(|| {
            let made = self.make(from, to);
            self.intervals.insert((from, to), made.clone());
            made
        })
    }

    fn make(&self, from: usize, to: usize) -> Option<Vec<Entry>> {
        let barriers = &self.view.barriers;
        let mut interval = Interval::from(self.threads, barriers[from]);
        for thread in 0..self.threads {
            interval.walk(self.view, thread, barriers[to], Manner::default())?;
        }
        interval.entries()
    }
}

/// A walk on any path, to a place outside all constructs.
pub fn plain_walk<'a>(
    view: &'a View<'a>,
    state: &'a State,
    thread: usize,
    from: usize,
) -> Walk<'a> {
    debug_assert!(view.role[from] != Role::Outside);
    Walk {
        view,
        state,
        thread,
        from,
        into: 0,
        avoid: None,
        locks: false,
    }
}
