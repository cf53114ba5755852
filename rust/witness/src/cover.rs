//! Few certified runs that show many pairs: a run made for one pair shows others on its way.

use crate::certify::{certify_all, Run};
use crate::parallel::each;
use crate::plan::Planner;
use crate::rules::State;
use crate::run::{follow, Draft, Mover, MOST_THREADS};
use crate::view::View;
use crate::{threads, Error};
use bohrali::Size;
use std::cmp::Reverse;

type Pair = (usize, usize);

/// Pairs that may all be met in teams of a size, or of any; rising, the lower node first.
pub struct Wanted {
    pub size: Option<Size>,
    pub pairs: Vec<Pair>,
}

/// Certified runs that show each of these pairs, in teams of the size that is named or of the least that serves; where
/// that is larger than a trace may have, none does. Each pair is certified by itself.
pub fn cover(view: &View, wanted: &[Wanted]) -> Result<Vec<Run>, Error> {
    // the largest teams have the longest runs
    let mut teams: Vec<_> = (0..=MOST_THREADS).rev().map(|x| (x, Vec::new())).collect();
    for (class, Wanted { size, pairs }) in wanted.iter().enumerate() {
        for &(a, b) in pairs {
            let place = MOST_THREADS.checked_sub(threads(view, *size, a, b));
            if let Some(place) = place {
                teams[place].1.push((class, (a, b)));
            }
        }
    }
    teams.retain(|x| !x.1.is_empty());
    let made = each(&teams, |(threads, wanted)| made(view, *threads, wanted));
    let made: Result<Vec<_>, Error> = made.into_iter().collect();
    let mut made: Vec<Made> = made?.into_iter().flatten().collect();
    made.sort_by_key(|x| (x.class, Reverse(x.shows[0])));
    certify_all(view, made.into_iter().map(|x| (x.draft, x.shows)).collect())
}

/// A run that is not certified yet, the class that it was made for, and the pairs that it is the first to show, of
/// which it was made for the first.
struct Made {
    class: usize,
    draft: Draft,
    shows: Vec<Pair>,
}

/// Runs of a team of so many threads for pairs of some classes, these in a row. Those of one team do not hang on those
/// of another.
fn made(view: &View, threads: usize, wanted: &[(usize, Pair)]) -> Result<Vec<Made>, Error> {
    let mut made = Vec::new();
    let mut planner = Planner::new(view, threads);
    let (mut shown, mut left) = (Pairs::none(view), Pairs::none(view));
    for of_class in wanted.chunk_by(|x, y| x.0 == y.0) {
        for &(_, pair) in of_class {
            left.set(pair, !shown.has(pair));
        }
        // a run to later nodes passes the earlier ones
        for &(class, (a, b)) in of_class.iter().rev() {
            if !left.has((a, b)) {
                continue;
            }
            let draft = planner.as_mut().and_then(|x| x.draft(a, b));
            let draft = draft.ok_or(Error::NoRun)?;
            left.set((a, b), false);
            let mut shows = vec![(a, b)];
            meet(view, &draft, |pair| {
                if left.has(pair) {
                    left.set(pair, false);
                    shows.push(pair);
                }
            });
            shows.iter().for_each(|&pair| shown.set(pair, true));
            made.push(Made {
                class,
                draft,
                shows,
            });
        }
    }
    Ok(made)
}

/// Looks at the pairs at which two threads of a run stand together, by this crate's own rules.
fn meet(view: &View, draft: &Draft, mut look: impl FnMut(Pair)) {
    let mut others = |at: &[usize], thread: usize| {
        for other in (0..at.len()).filter(|&x| x != thread) {
            look((at[other].min(at[thread]), at[other].max(at[thread])));
        }
    };
    let step = |mover: Mover, _: usize, state: &State| match mover {
        Mover::Thread(thread) => others(&state.at, thread),
        Mover::Released { .. } => (0..state.threads()).for_each(|x| others(&state.at, x)),
    };
    // a planner's run has no entry that is forbidden; else the pairs up to that are certified or not
    let _ = follow(view, draft.threads, &draft.trace, step);
}

/// A set of pairs.
struct Pairs {
    nodes: usize,
    has: Vec<bool>,
}

impl Pairs {
    fn none(view: &View) -> Pairs {
        let nodes = view.nodes();
        Pairs {
            nodes,
            has: vec![false; nodes * nodes],
        }
    }

    fn has(&self, (a, b): Pair) -> bool {
        self.has[a * self.nodes + b]
    }

    fn set(&mut self, (a, b): Pair, to: bool) {
        self.has[a * self.nodes + b] = to;
    }
}
