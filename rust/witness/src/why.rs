//! The answer for two nodes with all that shows it: words, and for a 0 a run.

use crate::certify::Run;
use crate::layout::{wrapped, WIDTH};
use crate::naming::Naming;
use crate::plan::chosen;
use crate::run::MOST_THREADS;
use crate::table::table;
use crate::terms::Terms;
use crate::words::{in_every_run, words, About, Pair};
use crate::{threads, Error, Witness, Witnesses};
use bohrali::{Answer, Size};

/// Two nodes with their answer.
#[derive(Clone, Debug)]
pub struct Why {
    pub a: usize,
    pub b: usize,
    pub answer: Answer,
    /// Of a never, whether it holds in runs that do not finish too.
    pub every_run: bool,
    pub words: Vec<String>,
    /// Of a 0, a certified run; none where it needs a team that is too large to be replayed.
    pub run: Option<Run>,
}

impl Why {
    pub fn of(
        naming: &Naming,
        witnesses: &mut Witnesses,
        size: Option<Size>,
        a: usize,
        b: usize,
    ) -> Result<Why, Error> {
        let (answer, run, larger) = match witnesses.witness(size, a, b)? {
            Witness::Run(run) => (Answer::Concurrent, Some(run), None),
            Witness::LargerTeam(threads) => (Answer::Concurrent, None, Some(threads)),
            Witness::Never(never) => (never, None, None),
        };
        let mut words = words(naming, size, answer, a, b);
        let terms = Terms::of(naming, size, a, b);
        words.extend(larger.map(|threads| not_shown(naming, &terms, size, threads, [a, b])));
        Ok(Why {
            a,
            b,
            answer,
            every_run: in_every_run(naming, answer, a, b),
            words,
            run,
        })
    }

    /// The lines for a person; with `all` no part of the run is folded.
    pub fn lines(&self, naming: &Naming, all: bool) -> Vec<String> {
        let Why { a, b, .. } = *self;
        let nodes = match a == b {
            true => format!("{} and itself", naming.placed(a)),
            false => format!("{} and {}", naming.placed(a), naming.placed(b)),
        };
        let verdict = match self.answer {
            Answer::Concurrent => "answer 0, two threads can be there together.".into(),
            never => format!("answer {}, never together.", never as u8),
        };
        let mut lines = wrapped(&format!("{nodes}: {verdict}"), WIDTH, 0);
        for word in &self.words {
            let inner = wrapped(word, WIDTH - 2, 0);
            lines.extend(inner.into_iter().map(|line| format!("  {line}")));
        }
        if let Some(run) = &self.run {
            let heading = format!("A run of a team of {} that shows it:", run.threads);
            lines.extend([String::new(), heading, String::new()]);
            lines.extend(table(naming, run, a, b, all));
        }
        lines
    }
}

/// What is said of many pairs: words with slots for their nodes, and the constructs that these are about.
#[derive(Clone, Debug, Default, PartialEq, Eq, PartialOrd, Ord)]
pub struct Pattern {
    pub words: Vec<String>,
    pub constructs: Vec<About>,
}

impl Pattern {
    /// Of two nodes with the answer that the library gives.
    pub fn of(naming: &Naming, size: Option<Size>, answer: Answer, a: usize, b: usize) -> Pattern {
        let terms = Terms::slots();
        let pair = Pair::of(naming, &terms, a, b);
        let mut words = pair.words(size, answer);
        let threads = threads(naming.view, size, a, b);
        if answer == Answer::Concurrent && threads > MOST_THREADS {
            words.push(not_shown(naming, &terms, size, threads, [a, b]));
        }
        Pattern {
            words,
            constructs: pair.constructs(size, answer),
        }
    }
}

/// Why no run is shown: the size that is named, or a thread of too high a number.
fn not_shown(
    naming: &Naming,
    terms: &Terms,
    size: Option<Size>,
    threads: usize,
    pair: [usize; 2],
) -> String {
    let is_high = |&v: &usize| naming.view.filter(v) >= Some(MOST_THREADS);
    let more = match pair.iter().position(is_high) {
        Some(at) => format!("Node {} is inside {}.", terms.nodes[at], terms.masters[at]),
        None => {
            let least = chosen(naming.view, pair[0], pair[1]).1;
            format!("A team of {least} has one: ask without a size.")
        }
    };
    let threads = size.map_or(threads.to_string(), |_| terms.size.clone());
    format!("No run is shown: it would have {threads} threads, and up to {MOST_THREADS} can be replayed. {more}")
}
