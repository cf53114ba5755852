//! A run as a table for a terminal, and by what it was certified.

use crate::certify::{Run, CERTIFIED_BY};
use crate::layout::{wrapped, Layout, MARGIN, WIDTH};
use crate::naming::Naming;
use crate::rows::{rows, Row};
use crate::run::{lock_broken, steps, Mover, Step};
use crate::view::Role;

/// The lines of a certified run: the table, whether it keeps the locks, and by what it was certified. With `all` no part
/// of it is folded.
pub fn table(naming: &Naming, run: &Run, a: usize, b: usize, all: bool) -> Vec<String> {
    let Ok(steps) = steps(naming.view, run.threads, &run.trace) else {
        return vec![format!(
            "The run cannot be shown as a table. It was certified by {CERTIFIED_BY}."
        )];
    };
    let rows = rows(naming, run, &steps, all);
    let layout = Layout::of(run, &rows);
    let mut lines = vec![layout.heading()];
    for row in &rows {
        lines.extend(layout.row(row));
        if matches!(row, Row::Met(..)) {
            lines.push(layout.together(run.at, [a, b]));
        }
    }
    let mut last = vec!["all threads are at Finish: the run has finished"];
    if rows.iter().any(|row| matches!(row, Row::Folded(..))) {
        last.push("folded steps are shown by why --all");
    }
    lines.extend(last.iter().map(|line| format!("{:MARGIN$}{line}", "")));
    let certified = format!(
        "Certified by {CERTIFIED_BY}: this trace is a run by the team rules, it finishes, and two threads stand at {a} and {b} \
         together in it. The texts of the table are tested, not proved."
    );
    for text in locks(naming, run, &steps, a, b)
        .into_iter()
        .chain([certified])
    {
        lines.extend(wrapped(&text, WIDTH, 0));
    }
    lines
}

/// Whether the run keeps the locks, and if not, where it breaks one; nothing where there are none.
fn locks(naming: &Naming, run: &Run, steps: &[Step], a: usize, b: usize) -> Option<String> {
    let view = naming.view;
    if (0..view.nodes()).all(|v| view.names(v).next().is_none()) {
        return None;
    }
    let Some(broken) = lock_broken(view, run.threads, steps) else {
        return Some("It keeps the locks: no thread goes into a critical while another is inside one of that name.".into());
    };
    let before = &steps.get(broken.checked_sub(1)?)?.state;
    let Mover::Thread(thread) = steps[broken].mover else {
        return None;
    };
    let Role::Begin(critical) = view.role[before.at[thread]] else {
        return None;
    };
    let why = match view.common_name(a, b) {
        Some(_) if a == b => {
            "the node is inside a critical, whose lock keeps two threads apart there"
        }
        Some(_) => {
            "both nodes are inside criticals of one name, whose lock keeps two threads apart there"
        }
        None => "no run that keeps them was found",
    };
    Some(format!(
        "It does not keep the locks, which answers do not look at: in step {} thread {thread} goes into {} while another thread is \
         inside one of that name; {why}.",
        broken + 1,
        naming.construct(critical)
    ))
}
