//! A finished run in which two threads stand at two nodes, built as the completeness proof builds it (crate exact,
//! Complete): the team goes from barrier to barrier to a common start; one thread walks to its node, then the other
//! to its own; both walk on to a common end, then the rest of the team; and all go on to Finish. No states are
//! searched: every part is a walk of one thread alone.

use crate::march::{plain_walk, Interval, Manner, Marches};
use crate::rules::State;
use crate::run::{Draft, Entry, MOST_THREADS};
use crate::view::{bits, View};
use crate::walk::Walk;
use bohrali::layout::ConstructKind;
use std::collections::BTreeMap;
use std::rc::Rc;

/// A thread and the node that it is to come to.
type Goal = (usize, usize);

/// The places of a common start and a common end among the barriers.
type Bounds = (usize, usize);

/// So many common starts and ends are tried, the likeliest first. Without locks any will do; with them one may be in the way.
const TRIALS: usize = 6;

/// The threads that may go to two nodes, each a pair, and the least team that has the first of them. Where both
/// nodes are free either may be thread 0, which a master on the way can matter to.
pub fn chosen(view: &View, a: usize, b: usize) -> (Vec<[usize; 2]>, usize) {
    let other = |filter: usize| usize::from(filter == 0);
    let pairs = match (view.filter(a), view.filter(b)) {
        (Some(f), Some(g)) if f == g => vec![],
        (Some(f), Some(g)) => vec![[f, g]],
        (Some(f), None) => vec![[f, other(f)]],
        (None, Some(g)) => vec![[other(g), g]],
        (None, None) => vec![[0, 1], [1, 0]],
    };
    let least = pairs.first().map_or(0, |pair| pair[0].max(pair[1]) + 1);
    (pairs, least)
}

/// By a barrier's place among the barriers: the fewest steps of a thread alone from there to a node, and from the
/// node to there.
struct Reach {
    to: Vec<Option<u32>>,
    on: Vec<Option<u32>>,
}

/// Builds runs over one region, of teams of one size.
pub struct Planner<'a> {
    view: &'a View<'a>,
    threads: usize,
    marches: Marches<'a>,
    reaches: BTreeMap<Goal, Rc<Reach>>,
}

impl<'a> Planner<'a> {
    /// None for a team that has no two threads, or more than a trace may have.
    pub fn new(view: &'a View<'a>, threads: usize) -> Option<Planner<'a>> {
        (2..=MOST_THREADS).contains(&threads).then(|| Planner {
            view,
            threads,
            marches: Marches::new(view, threads),
            reaches: BTreeMap::new(),
        })
    }

    /// A run for two nodes that are no barriers: the shortest found that keeps the locks, or else the shortest
    /// found. None is found for a never.
    pub fn draft(&mut self, a: usize, b: usize) -> Option<Draft> {
        let open = self.view.is_open(a) && self.view.is_open(b);
        let (pairs, least) = chosen(self.view, a, b);
        if !open || self.threads < least {
            return None;
        }
        let goals: Vec<[Goal; 2]> = pairs.iter().map(|&[p, q]| [(p, a), (q, b)]).collect();
        let locked = match self.view.common_name(a, b) {
            Some(_) => None,
            None => self.shortest(&goals, true),
        };
        let trace = locked.or_else(|| self.shortest(&goals, false))?;
        Draft::of(self.view, self.threads, trace, a, b)
    }

    /// The shortest run found in which two threads come to their nodes, for one of some pairs of threads.
    fn shortest(&mut self, goals: &[[Goal; 2]], locks: bool) -> Option<Vec<Entry>> {
        let runs = goals.iter().filter_map(|&goals| {
            let bounds = self.bounds(goals).into_iter().take(TRIALS);
            let mut runs = bounds.filter_map(|x| self.between(x, goals, locks));
            runs.next()
        });
        let runs: Vec<_> = runs.collect();
        runs.into_iter().min_by_key(Vec::len)
    }

    /// A run in which they do so between a common start and a common end.
    fn between(&mut self, bounds: Bounds, goals: [Goal; 2], locks: bool) -> Option<Vec<Entry>> {
        let (start, end) = bounds;
        let orders = [goals, [goals[1], goals[0]]];
        let barrier = |place: usize| self.view.barriers[place];
        let met = orders
            .iter()
            .flat_map(|order| self.meet(barrier(start), order, locks));
        let left =
            met.flat_map(|met| orders.map(|order| self.leave(&met, barrier(end), &order, locks)));
        let best = left.flatten().min_by_key(|x| x.steps.len())?;
        let parts = [
            self.marches.march_to(start)?,
            best.entries()?,
            self.marches.march_from(end)?,
        ];
        Some(parts.concat())
    }

    /// What lies about a thread's node, worked out once: many pairs have it.
    fn reach(&mut self, goal: Goal) -> Rc<Reach> {
        let (view, threads) = (self.view, self.threads);
        let worked_out = || {
            let (thread, node) = goal;
            let mut state = State::fresh(threads, view.start);
            let walk = plain_walk(view, &state, thread, view.start);
            let into = view.held[node];
            let to = Walk { into, ..walk }.distances_to(node);
            state.at[thread] = node;
            let on = plain_walk(view, &state, thread, node).distances();
            let at_barriers =
                |steps: Vec<Option<u32>>| view.barriers.iter().map(|&x| steps[x]).collect();
            Rc::new(Reach {
                to: at_barriers(to),
                on: at_barriers(on),
            })
        };
        self.reaches.entry(goal).or_insert_with(worked_out).clone()
    }

    /// The common starts and common ends, those with the shortest run, about, first.
    fn bounds(&mut self, goals: [Goal; 2]) -> Vec<Bounds> {
        let view = self.view;
        let [one, other] = goals.map(|goal| self.reach(goal));
        let places = 0..view.barriers.len();
        let starts = places.clone().filter_map(|s| {
            let there = one.to[s]? + other.to[s]?;
            Some((s, self.marches.before(s)? + there))
        });
        let ends = places.filter_map(|e| {
            let on = one.on[e]? + other.on[e]?;
            Some((e, self.marches.behind(e)? + on))
        });
        let ends: Vec<_> = ends.collect();
        let pairs =
            starts.flat_map(|(s, there)| ends.iter().map(move |&(e, on)| (s, e, there + on)));
        let priced =
            pairs.filter_map(|(s, e, cost)| Some((cost + self.marches.followers(s, e)?, (s, e))));
        let mut priced: Vec<_> = priced.collect();
        priced.sort_unstable();
        priced.into_iter().map(|x| x.1).collect()
    }

    /// Both threads walk from a barrier to their nodes, the first on any path, or on one past no begin that the
    /// second needs untouched.
    fn meet(&self, start: usize, goals: &[Goal; 2], locks: bool) -> Vec<Interval> {
        let [(first, a), (second, b)] = *goals;
        let exclusive = |&c: &usize| {
            matches!(
                self.view.kind(c),
                ConstructKind::Single | ConstructKind::Sections
            )
        };
        let needed = bits(self.view.held[b] & !self.view.held[a]).find(exclusive);
        let begin = needed.map(|c| self.view.constructs[c].begin);
        let avoided = begin.filter(|&begin| begin != a).map(Some);
        let both = |avoid: Option<usize>| {
            let mut interval = Interval::from(self.threads, start);
            interval.walk(self.view, first, a, Manner { avoid, locks })?;
            self.come(&mut interval, second, b, locks)?;
            Some(interval)
        };
        std::iter::once(None)
            .chain(avoided)
            .filter_map(both)
            .collect()
    }

    /// A thread walks to its node; where the construct around that is another thread's, in rounds through it until
    /// an instance is its own.
    fn come(&self, interval: &mut Interval, thread: usize, goal: usize, locks: bool) -> Option<()> {
        let (view, manner) = (self.view, Manner { avoid: None, locks });
        if interval.walk(view, thread, goal, manner).is_some() {
            return Some(());
        }
        let shared = |&c: &usize| {
            let kind = view.kind(c);
            matches!(
                kind,
                ConstructKind::Single | ConstructKind::Do | ConstructKind::Sections
            )
        };
        let c = bits(view.held[goal]).find(shared)?;
        let (begin, end) = (view.constructs[c].begin, view.constructs[c].end);
        let most = interval
            .state
            .encounters
            .iter()
            .map(|counts| counts[c])
            .max()?;
        interval.walk(view, thread, begin, manner)?;
        for _ in 0..most {
            interval.walk(view, thread, end, manner)?;
            interval.walk(view, thread, begin, manner)?;
            if interval.walk(view, thread, goal, manner).is_some() {
                return Some(());
            }
        }
        None
    }

    /// From there both walk on to a barrier, in this order, and then the rest of the team from the start.
    fn leave(
        &self,
        met: &Interval,
        end: usize,
        order: &[Goal; 2],
        locks: bool,
    ) -> Option<Interval> {
        let mut interval = met.clone();
        let two = order.map(|goal| goal.0);
        let rest = (0..self.threads).filter(|thread| !two.contains(thread));
        let manner = Manner { avoid: None, locks };
        for thread in two.into_iter().chain(rest) {
            interval.walk(self.view, thread, end, manner)?;
        }
        Some(interval)
    }
}
