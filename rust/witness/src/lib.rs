//! Why may two nodes be met together, and why not? For a pair answered 0 a finished run that shows it; for a never the
//! rule with its evidence, in words.
//!
//! Every answer is the proved library's. A run is built by rules of this crate, which are tested; it is handed out
//! only once the library has certified it. Words say what Phases and the construct records say.

mod certify;
mod cover;
mod error;
mod event;
pub mod forbidden;
mod layout;
mod march;
mod naming;
mod parallel;
pub mod plan;
mod rows;
mod rules;
pub mod run;
mod table;
mod terms;
pub mod view;
mod walk;
mod why;
mod words;

use bohrali::{Answer, Region, Size};
use plan::{chosen, Planner};
use run::MOST_THREADS;
use view::View;

pub use certify::{certify, Run, CERTIFIED_BY};
pub use cover::{cover, Wanted};
pub use error::Error;
pub use layout::{wrapped, WIDTH};
pub use naming::Naming;
pub use terms::SLOT;
pub use why::{Pattern, Why};
pub use words::{in_every_run, words, About};

/// What shows an answer.
#[derive(Clone, Debug, PartialEq, Eq)]
pub enum Witness {
    /// A certified run of a team of the size that is named, or of the least that serves.
    Run(Run),
    /// They are never met, by the rule of this answer.
    Never(Answer),
    /// They may be met, but a run needs so many threads, more than a trace may have.
    LargerTeam(usize),
}

/// The answer of the library.
pub fn answer(
    chart: &[u8],
    region: Region,
    size: Option<Size>,
    a: usize,
    b: usize,
) -> Result<Answer, Error> {
    let answer = match size {
        None => bohrali::pair(chart, region, a, b),
        Some(size) => bohrali::pair_sized(chart, region, size, a, b),
    };
    Ok(answer?)
}

/// What shows the answer for two nodes of a region, in teams of any size or of one.
pub fn witness(
    chart: &[u8],
    region: Region,
    size: Option<Size>,
    a: usize,
    b: usize,
) -> Result<Witness, Error> {
    let view = View::read(chart, region)?;
    Witnesses::new(&view).witness(size, a, b)
}

/// What shows the answers for many pairs of one region.
pub struct Witnesses<'a> {
    view: &'a View<'a>,
    /// By the number of threads.
    planners: Vec<Option<Planner<'a>>>,
}

impl<'a> Witnesses<'a> {
    pub fn new(view: &'a View<'a>) -> Witnesses<'a> {
        Witnesses {
            view,
            planners: (0..=MOST_THREADS).map(|_| None).collect(),
        }
    }

    /// What shows the answer for two nodes.
    pub fn witness(&mut self, size: Option<Size>, a: usize, b: usize) -> Result<Witness, Error> {
        let view = self.view;
        match answer(view.bytes, view.region, size, a, b)? {
            Answer::Concurrent => {}
            never => return Ok(Witness::Never(never)),
        }
        self.run(size, a, b)
    }

    /// What shows that two nodes may be met, which is known of them.
    fn run(&mut self, size: Option<Size>, a: usize, b: usize) -> Result<Witness, Error> {
        let view = self.view;
        let threads = threads(view, size, a, b);
        let Some(planner) = self.planners.get_mut(threads) else {
            return Ok(Witness::LargerTeam(threads));
        };
        if planner.is_none() {
            *planner = Planner::new(view, threads);
        }
        let draft = planner.as_mut().and_then(|x| x.draft(a, b));
        certify(view, draft.ok_or(Error::NoRun)?, a, b).map(Witness::Run)
    }
}

/// The threads of a run for two nodes: those of the size that is named, or the fewest that serve.
fn threads(view: &View, size: Option<Size>, a: usize, b: usize) -> usize {
    size.map_or_else(|| chosen(view, a, b).1, |size| size.0)
}
