//! Replay of a recorded run (02, Note 11): entry after entry by the team rules of 01, with the sections of Note 1
//! and the filters of Note 5, over the chart as read for a region; and the program that replays.

use crate::chart::{Chart, Construct, Node};
use crate::printing;
use crate::regions::{read, Region};
use std::fmt::Write;

/// "The team is up to eight threads."
pub const MOST_THREADS: usize = 8;

/// "The replay says finished, unfinished, or the index of the first entry that the team rules forbid."
#[derive(Clone, Copy, Debug, PartialEq, Eq)]
pub enum Outcome {
    Finished,
    Unfinished,
    Forbidden(usize),
}

/// A thread's record, by the numbers of the whole chart.
#[derive(Clone, Debug, PartialEq, Eq)]
pub struct Record {
    pub node: usize,
    /// By construct, "how often it has left that construct's begin in this stretch".
    pub counts: Vec<u64>,
    /// By section, whether the thread "has taken [it] in its latest meeting" of the sections construct.
    pub taken: Vec<bool>,
}

/// What a replay leaves.
#[derive(Clone, Debug, PartialEq, Eq)]
pub struct Replay {
    pub outcome: Outcome,
    pub records: Vec<Record>,
    /// "A sheet of n rows of n, both ways round, 1 for met and 0 otherwise."
    pub sheet: Vec<u8>,
}

/// 1 to 10, 23, then 22; a sheet always has room here.
pub fn replay(chart: &[u8], region: u64, trace: &[u8], threads: usize) -> Result<Replay, u8> {
    replay_in(&read(chart, region)?, trace, threads)
}

/// The same over a chart as read: "22 odd trace length, or a team of none or over eight".
pub fn replay_in(region: &Region, trace: &[u8], threads: usize) -> Result<Replay, u8> {
    if !trace.len().is_multiple_of(2) || !(1..=MOST_THREADS).contains(&threads) {
        return Err(22);
    }
    let mut run = Run::of(region, threads);
    let forbidden = trace.chunks(2).position(|entry| {
        let (thread, node) = (usize::from(entry[0]), usize::from(entry[1]));
        let place = region.place.get(node).copied().flatten();
        // "in a trace, an entry to it is forbidden": a node outside the region, or none
        !place.is_some_and(|to| run.take(thread, to))
    });
    let outcome = match forbidden {
        Some(index) => Outcome::Forbidden(index),
        None if run.all_at(region.chart.finish) => Outcome::Finished,
        None => Outcome::Unfinished,
    };
    Ok(Replay {
        outcome,
        records: run.records(region),
        sheet: run.sheet(region),
    })
}

/// A thread, by the numbers of the chart as read.
#[derive(Clone)]
struct Thread {
    node: usize,
    counts: Vec<u64>,
    taken: Vec<bool>,
}

/// A team on its way, with the choices of an opening that is not yet whole and the pairs met so far.
pub struct Run<'a> {
    chart: &'a Chart,
    successors: Vec<Vec<usize>>,
    threads: Vec<Thread>,
    chosen: Vec<usize>,
    met: Vec<Vec<bool>>,
}

impl<'a> Run<'a> {
    /// "Each record is first set to Start with its counts 0 and no section taken."
    pub fn of(region: &'a Region, threads: usize) -> Run<'a> {
        let chart = &region.chart;
        let nodes = chart.nodes.len();
        let mut run = Run {
            chart,
            successors: chart.successors(),
            threads: vec![fresh(chart, chart.start); threads],
            chosen: Vec::new(),
            met: vec![vec![false; nodes]; nodes],
        };
        run.mark();
        run
    }

    /// An entry: the thread steps to the node, by its number in the chart as read. False, and nothing done, where
    /// the rules forbid it.
    pub fn take(&mut self, thread: usize, to: usize) -> bool {
        if thread >= self.threads.len() {
            return false;
        }
        let first = self.threads[0].node;
        let gathered = self.chart.is_barrier(first) && self.all_at(first);
        if gathered && first != self.chart.finish {
            return self.choose(thread, to, first);
        }
        let Some(stepped) = self.step(thread, to) else {
            return false;
        };
        self.threads[thread] = stepped;
        self.mark();
        true
    }

    /// "An opening is one entry for each thread, in thread order, and takes effect only with its last entry."
    fn choose(&mut self, thread: usize, to: usize, barrier: usize) -> bool {
        if thread != self.chosen.len() || !self.leads(barrier, to) {
            return false;
        }
        self.chosen.push(to);
        if self.chosen.len() == self.threads.len() {
            let chosen = std::mem::take(&mut self.chosen);
            let opened = chosen.into_iter().map(|to| fresh(self.chart, to));
            self.threads = opened.collect();
            self.mark();
        }
        true
    }

    /// A step of one thread, by the node that it is at: the thread after it.
    fn step(&self, thread: usize, to: usize) -> Option<Thread> {
        let at = self.threads[thread].node;
        let Node { kind, construct } = self.chart.nodes[at];
        let construct = usize::from(construct);
        match kind {
            Node::BARRIER => None,
            Node::BEGIN => self.leave_begin(thread, construct, to),
            Node::END => self.leave_end(thread, construct, to),
            _ => self.leads(at, to).then(|| self.moved(thread, to)),
        }
    }

    fn leave_begin(&self, thread: usize, construct: usize, to: usize) -> Option<Thread> {
        let Construct { kind, filter, .. } = self.chart.constructs[construct];
        if kind == Construct::SECTIONS {
            return self.leave_sections_begin(thread, construct, to);
        }
        let (by_edge, straight) = match kind {
            Construct::MASTER => (thread == filter.into(), thread != filter.into()),
            Construct::SINGLE => {
                let first = self.is_first(thread, construct);
                (first, !first)
            }
            Construct::DO => (true, true),
            Construct::ORDERED => (!self.is_held(thread, construct), false),
            _ => (true, false),
        };
        let enters = by_edge && self.leads(self.threads[thread].node, to);
        let passes = straight && to == self.chart.end_of(construct);
        (enters || passes).then(|| self.left(thread, construct, to))
    }

    /// "No thread has left it for the k-th time before", where this thread now leaves for the k-th time.
    fn is_first(&self, thread: usize, single: usize) -> bool {
        let before = self.threads[thread].counts[single];
        self.threads.iter().all(|x| x.counts[single] <= before)
    }

    /// Whether another thread is "inside an ordered of the same do with the same count for that do".
    fn is_held(&self, thread: usize, ordered: usize) -> bool {
        let of_do = self.chart.constructs[ordered].parent;
        let count = |x: &Thread| x.counts[usize::from(of_do)];
        let is_inside = |x: &Thread| {
            let around = self.chart.enclosing(x.node).into_iter();
            let mut around = around.map(|c| self.chart.constructs[c]);
            around.any(|c| c.kind == Construct::ORDERED && c.parent == of_do)
        };
        let mut others = self.threads.iter().enumerate().filter(|x| x.0 != thread);
        others.any(|(_, x)| is_inside(x) && count(x) == count(&self.threads[thread]))
    }

    /// "A thread steps to the begin of some section that no thread has taken in that meeting"; "once all are
    /// taken, the begin leads straight to the end".
    fn leave_sections_begin(&self, thread: usize, sections: usize, to: usize) -> Option<Thread> {
        let instance = self.threads[thread].counts[sections] + 1;
        let untaken = self.untaken(sections, instance);
        if untaken.is_empty() {
            let ends = to == self.chart.end_of(sections);
            return ends.then(|| self.left(thread, sections, to));
        }
        let section = self.begun_by(&untaken, to)?;
        let mut left = self.left(thread, sections, to);
        left.taken[section] = true;
        Some(left)
    }

    /// "At the do's end it may also step to a node that an edge leads to from the begin"; at the end of a sections
    /// to a section that is left to take, and along an edge only once all are taken.
    fn leave_end(&self, thread: usize, construct: usize, to: usize) -> Option<Thread> {
        let along = self.leads(self.threads[thread].node, to);
        let mut moved = self.moved(thread, to);
        match self.chart.constructs[construct].kind {
            Construct::DO => {
                let again = self.leads(self.chart.begin_of(construct), to);
                (along || again).then_some(moved)
            }
            Construct::SECTIONS => {
                let untaken = self.untaken(construct, moved.counts[construct]);
                if untaken.is_empty() {
                    return along.then_some(moved);
                }
                let section = self.begun_by(&untaken, to)?;
                moved.taken[section] = true;
                Some(moved)
            }
            _ => along.then_some(moved),
        }
    }

    /// The sections that nobody has taken in a meeting: "in a meeting that some thread is past, all are taken".
    fn untaken(&self, sections: usize, instance: u64) -> Vec<usize> {
        let count = |x: &Thread| x.counts[sections];
        if self.threads.iter().any(|x| count(x) > instance) {
            return Vec::new();
        }
        let has_taken = |x: &Thread, section: usize| count(x) == instance && x.taken[section];
        let is_free = |&section: &usize| !self.threads.iter().any(|x| has_taken(x, section));
        let own = self.chart.sections_of(sections).into_iter();
        own.filter(is_free).collect()
    }

    /// The one of some sections that begins at a node.
    fn begun_by(&self, sections: &[usize], node: usize) -> Option<usize> {
        let mut sections = sections.iter().copied();
        sections.find(|&section| self.chart.begin_of(section) == node)
    }

    fn leads(&self, from: usize, to: usize) -> bool {
        self.successors[from].contains(&to)
    }

    fn moved(&self, thread: usize, to: usize) -> Thread {
        Thread {
            node: to,
            ..self.threads[thread].clone()
        }
    }

    /// A begin is left: one more is counted, and of a sections a new meeting begins.
    fn left(&self, thread: usize, construct: usize, to: usize) -> Thread {
        let mut left = self.moved(thread, to);
        left.counts[construct] += 1;
        for section in self.chart.sections_of(construct) {
            left.taken[section] = false;
        }
        left
    }

    fn all_at(&self, node: usize) -> bool {
        self.threads.iter().all(|x| x.node == node)
    }

    /// "Marks every pair of nodes met": a pair is met by two different threads.
    fn mark(&mut self) {
        for (number, x) in self.threads.iter().enumerate() {
            for (other, y) in self.threads.iter().enumerate() {
                if number != other {
                    self.met[x.node][y.node] = true;
                }
            }
        }
    }

    fn records(&self, region: &Region) -> Vec<Record> {
        let node = |here: usize| {
            let is_same = |place: &Option<usize>| *place == Some(here);
            region.place.iter().position(is_same).expect("its own node")
        };
        let own = |here: &Option<usize>, thread: &Thread| here.map(|c| thread.counts[c]);
        let record = |thread: &Thread| Record {
            node: node(thread.node),
            counts: region
                .constructs
                .iter()
                .map(|c| own(c, thread).unwrap_or(0))
                .collect(),
            taken: region
                .constructs
                .iter()
                .map(|c| c.is_some_and(|c| thread.taken[c]))
                .collect(),
        };
        self.threads.iter().map(record).collect()
    }

    fn sheet(&self, region: &Region) -> Vec<u8> {
        let met = |a: Option<usize>, b: Option<usize>| match (a, b) {
            (Some(a), Some(b)) => u8::from(self.met[a][b]),
            _ => 0,
        };
        let row = |&a: &Option<usize>| region.place.iter().map(move |&b| met(a, b));
        region.place.iter().flat_map(row).collect()
    }
}

/// A thread that has left no begin since the last opening.
fn fresh(chart: &Chart, node: usize) -> Thread {
    Thread {
        node,
        counts: vec![0; chart.constructs.len()],
        taken: vec![false; chart.constructs.len()],
    }
}

/// The longest trace that the program's two bytes of length can announce.
pub const MOST_TRACE: usize = 65_535;

/// The longest input of the program: region, team, such a trace behind its length and the longest chart.
pub const MOST_INPUT: usize = 1 + 1 + 2 + MOST_TRACE + printing::MOST_BYTES;

/// What the program prints. Its input is the region in one byte, the team in one, the trace behind its length in two,
/// and the chart to the end.
pub fn text(input: &[u8]) -> String {
    text_by(input, replay)
}

/// The same, replayed by another implementation.
pub fn text_by(
    input: &[u8],
    replay: impl Fn(&[u8], u64, &[u8], usize) -> Result<Replay, u8>,
) -> String {
    if input.len() > MOST_INPUT {
        return "input too long\n".into();
    }
    let parts = input.split_first_chunk().and_then(|(head, rest)| {
        let [region, team, low, high] = *head;
        let length = u16::from_le_bytes([low, high]);
        let (trace, chart) = rest.split_at_checked(length.into())?;
        Some((region, team, trace, chart))
    });
    let Some((region, team, trace, chart)) = parts else {
        return "input too short\n".into();
    };
    match replay(chart, region.into(), trace, team.into()) {
        Ok(replay) => lines(&replay).expect("text grows"),
        Err(refusal) => format!("refused {refusal}\n"),
    }
}

fn lines(replay: &Replay) -> Result<String, std::fmt::Error> {
    let mut text = match replay.outcome {
        Outcome::Finished => "finished\n".to_string(),
        Outcome::Unfinished => "unfinished\n".to_string(),
        Outcome::Forbidden(index) => format!("forbidden {index}\n"),
    };
    for (thread, record) in replay.records.iter().enumerate() {
        write!(text, "thread {thread} node {}", record.node)?;
        let counted = record.counts.iter().enumerate().filter(|x| *x.1 != 0);
        for (construct, count) in counted {
            write!(text, " construct {construct} count {count}")?;
        }
        let taken = record.taken.iter().enumerate().filter(|x| *x.1);
        for (section, _) in taken {
            write!(text, " taken {section}")?;
        }
        writeln!(text)?;
    }
    for (a, b) in replay.met() {
        writeln!(text, "met {a} {b}")?;
    }
    Ok(text)
}

impl Replay {
    /// The pairs a ≤ b that are marked, by a and then b.
    pub fn met(&self) -> Vec<(usize, usize)> {
        let nodes = self.sheet.len().isqrt();
        let pairs = (0..nodes).flat_map(|a| (a..nodes).map(move |b| (a, b)));
        pairs
            .filter(|(a, b)| self.sheet[a * nodes + b] == 1)
            .collect()
    }
}

/// The program's input.
pub fn input(region: u8, team: u8, trace: &[u8], chart: &[u8]) -> Vec<u8> {
    let length = u16::try_from(trace.len()).expect("a length of two bytes");
    let [low, high] = length.to_le_bytes();
    [&[region, team, low, high], trace, chart].concat()
}
