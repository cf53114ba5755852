//! What makes a run count: the proved library says that its trace is a run by the team rules, that it finishes, and
//! that two different threads stand at the two nodes together. This is the one place that asks it.

use crate::parallel::each;
use crate::run::Draft;
use crate::view::View;
use crate::Error;
use bohrali::Size;
use std::ops::Deref;

/// By what runs are certified, for words.
pub const CERTIFIED_BY: &str = "the proved call bohrali_witnessed";

/// So many pairs of one run are asked for in a row.
const IN_A_ROW: usize = 64;

/// A finished run that is certified; only this module makes one.
#[derive(Clone, Debug, PartialEq, Eq)]
pub struct Run(Draft);

impl Deref for Run {
    type Target = Draft;

    fn deref(&self) -> &Draft {
        &self.0
    }
}

/// The run of a draft's trace, if it is certified for the two nodes.
pub fn certify(view: &View, draft: Draft, a: usize, b: usize) -> Result<Run, Error> {
    ask(view, &draft, &[(a, b)])?;
    let run = Draft::of(view, draft.threads, draft.trace, a, b);
    run.map(Run).ok_or(Error::NotCertified)
}

/// Drafts as runs, if each is certified for each of its pairs.
pub(crate) fn certify_all(
    view: &View,
    drafts: Vec<(Draft, Vec<(usize, usize)>)>,
) -> Result<Vec<Run>, Error> {
    let rows = drafts.iter().flat_map(|(draft, pairs)| {
        let rows = pairs.chunks(IN_A_ROW);
        rows.map(move |row| (draft, row))
    });
    let rows: Vec<_> = rows.collect();
    let asked = each(&rows, |(draft, row)| ask(view, draft, row));
    asked.into_iter().collect::<Result<(), Error>>()?;
    Ok(drafts.into_iter().map(|x| Run(x.0)).collect())
}

/// Asks the library whether the trace is a run for each of these pairs.
fn ask(view: &View, draft: &Draft, pairs: &[(usize, usize)]) -> Result<(), Error> {
    let (size, trace) = (Size(draft.threads), draft.bytes());
    for &(a, b) in pairs {
        if !bohrali::witnessed(view.bytes, view.region, size, &trace, a, b)? {
            return Err(Error::NotCertified);
        }
    }
    Ok(())
}
