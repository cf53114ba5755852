//! The rows of a run's table: a step each, releases in one, with long parts folded.

use crate::certify::Run;
use crate::event::event;
use crate::naming::Naming;
use crate::rules::State;
use crate::run::{Mover, Step};
use std::iter;

/// What stands in a thread's column.
#[derive(Clone, Debug, PartialEq, Eq)]
pub enum Cell {
    /// It comes to a node, or is shown there, with the words for it.
    Node(usize, String),
    /// It stays where it is.
    Stays,
}

#[derive(Clone, Debug, PartialEq, Eq)]
pub enum Row {
    /// By thread, before the first step.
    First(Vec<Cell>),
    /// Step number and cells; all threads leave a barrier together.
    Release(usize, Vec<Cell>),
    /// Step number and cells.
    Step(usize, Vec<Cell>),
    /// The same, where the two stand at their nodes for the first time.
    Met(usize, Vec<Cell>),
    /// Steps from one to another that are not shown, and what happens there.
    Folded(usize, usize, String),
}

/// A table of more rows than this is folded.
const LONG: usize = 40;
/// Of a thread's steps in a row so many are shown at either end.
const SHOWN: usize = 3;

/// The rows of a run, or with `all` those that a long one would fold too.
pub fn rows(naming: &Naming, run: &Run, steps: &[Step], all: bool) -> Vec<Row> {
    let start = State::fresh(run.threads, naming.view.start);
    let before = iter::once(&start).chain(steps.iter().map(|x| &x.state));
    let numbered = (1..).zip(steps.iter().zip(before));
    let rows = numbered.map(|(number, (step, before))| {
        let met = step.entries == run.met_after;
        let cells = match step.mover {
            Mover::Thread(thread) => moved(naming, before, &step.state, thread, met),
            Mover::Released { .. } => everywhere(naming, &step.state),
        };
        match step.mover {
            _ if met => Row::Met(number, cells),
            Mover::Released { .. } => Row::Release(number, cells),
            Mover::Thread(_) => Row::Step(number, cells),
        }
    });
    let rows: Vec<Row> = rows.collect();
    let rows = match all || rows.len() <= LONG {
        true => rows,
        false => Folding {
            naming,
            run,
            steps,
            rows: &rows,
        }
        .folded(),
    };
    iter::once(Row::First(everywhere(naming, &start)))
        .chain(rows)
        .collect()
}

fn everywhere(naming: &Naming, state: &State) -> Vec<Cell> {
    let cells = state.at.iter().map(|&v| Cell::Node(v, naming.node(v)));
    cells.collect()
}

/// The cells of a thread's step: its own, and where the two stand at their nodes all.
fn moved(naming: &Naming, before: &State, after: &State, thread: usize, met: bool) -> Vec<Cell> {
    let cell = |(other, &v): (usize, &usize)| {
        if other == thread {
            let text = naming.step(v, event(naming, before, thread, v));
            let all = match after.gathered(naming.view) {
                Some(_) => ", all are here",
                None => "",
            };
            Cell::Node(v, text + all)
        } else if met {
            Cell::Node(v, naming.node(v))
        } else {
            Cell::Stays
        }
    };
    after.at.iter().enumerate().map(cell).collect()
}

/// A long run; row i is that of step i, both counted from 0.
struct Folding<'a> {
    naming: &'a Naming<'a>,
    run: &'a Run,
    steps: &'a [Step],
    rows: &'a [Row],
}

impl Folding<'_> {
    /// Intervals other than that of the moment in one row. In that interval, of a long walk its ends alone, and threads
    /// other than the two in one row.
    fn folded(&self) -> Vec<Row> {
        let is_met = |row: &Row| matches!(row, Row::Met(..));
        let met = self.rows.iter().position(is_met).unwrap_or(0);
        let opens = |&i: &usize| matches!(self.steps[i].mover, Mover::Released { .. });
        let first = (0..=met).rev().find(opens).unwrap_or(0);
        let end = (met + 1..self.steps.len())
            .find(opens)
            .unwrap_or(self.steps.len());
        let mut rows: Vec<Row> = self.intervals(0, first).into_iter().collect();
        let mut at = first;
        while at < end {
            let behind =
                (at + 1..end).find(|&i| i == met || at == met || self.who(i) != self.who(at));
            let behind = behind.unwrap_or(end);
            rows.extend(self.walk(at, behind));
            at = behind;
        }
        rows.extend(self.intervals(end, self.steps.len()));
        rows
    }

    /// Whose step it is: one of the two threads', or another's.
    fn who(&self, step: usize) -> Option<usize> {
        match self.steps[step].mover {
            Mover::Thread(thread) => self.run.at.iter().position(|&x| x == thread),
            Mover::Released { .. } => Some(self.run.at.len()),
        }
    }

    /// Steps of one thread, or of those that follow.
    fn walk(&self, from: usize, end: usize) -> Vec<Row> {
        let (who, shown) = match self.who(from).and_then(|i| self.run.at.get(i)) {
            Some(thread) => (format!("thread {thread} goes on"), SHOWN),
            None => ("the other threads follow".into(), 0),
        };
        if end - from <= 2 * shown + 1 {
            return self.rows[from..end].to_vec();
        }
        let hidden = Row::Folded(from + shown + 1, end - shown, who);
        let mut rows = self.rows[from..from + shown].to_vec();
        rows.push(hidden);
        rows.extend_from_slice(&self.rows[end - shown..end]);
        rows
    }

    /// The row for whole intervals.
    fn intervals(&self, from: usize, end: usize) -> Option<Row> {
        let steps = self.steps.get(from..end)?;
        let opened = steps.iter().filter_map(|step| match step.mover {
            Mover::Released { barrier } => Some(barrier.to_string()),
            Mover::Thread(_) => None,
        });
        let opened: Vec<String> = opened.collect();
        let last = self.naming.node(*steps.last()?.state.at.first()?);
        let text = match &opened[..] {
            [] => return None,
            [one] => format!("all go from {one} to {last}"),
            [one, more @ ..] if more.len() > 6 => {
                format!("all go from {one}, past {} barriers, to {last}", more.len())
            }
            [one, more @ ..] => format!("all go from {one}, past {}, to {last}", more.join(", ")),
        };
        Some(Row::Folded(from + 1, end, text))
    }
}
