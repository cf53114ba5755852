//! The team rules of 01 and 02 and nothing else: the states of a team and the steps from each; those
//! of sections are in `sections`, those of masked constructs in `masked`, that of locks in `locks`. No
//! phase, mask or answer is known here.

use crate::fault::Fault;
use reference::chart::{Chart, Construct, Node};

pub const MOST_THREADS: usize = 4;
pub const MOST_CONSTRUCTS: usize = 5;
/// Bits of a packed state for a node, a set of constructs and a count; 124 in all.
const NODE_BITS: usize = 6;
const SET_BITS: usize = MOST_CONSTRUCTS;
const COUNT_BITS: usize = 4;

/// A set of constructs: bit c for construct c.
pub type Constructs = u8;

/// "The state is each thread's node and, per thread and construct, how often it has left that
/// construct's begin" since the last release. Only the counts of singles, dos and sections are kept:
/// no rule reads another, so leaving those out changes no step.
#[derive(Clone, Copy, Debug, PartialEq, Eq)]
pub struct State {
    pub nodes: [u8; MOST_THREADS],
    pub(crate) encounters: [[u8; MOST_CONSTRUCTS]; MOST_THREADS],
    /// 02: "per thread and sections construct, which sections the thread has taken in its latest
    /// meeting": bit s for section s, which is a section of one sections construct only.
    pub(crate) taken: [Constructs; MOST_THREADS],
}

impl State {
    /// The state as one number.
    pub fn packed(&self) -> u128 {
        let nodes = self.nodes.iter().map(|&node| (node, NODE_BITS));
        let sets = self.taken.iter().map(|&set| (set, SET_BITS));
        let counts = self.encounters.iter().flatten();
        let counts = counts.map(|&count| (count, COUNT_BITS));
        let fields = nodes.chain(sets).chain(counts);
        fields.fold(0, |packed, (field, bits)| {
            packed << bits | u128::from(field)
        })
    }

    pub(crate) fn moved(mut self, thread: usize, to: usize) -> State {
        self.nodes[thread] = to as u8;
        self
    }
}

/// A team over a chart as read for its region, of at most `MOST_CONSTRUCTS` constructs.
pub struct Team<'a> {
    pub(crate) chart: &'a Chart,
    successors: Vec<Vec<usize>>,
    pub(crate) enclosing: Vec<Vec<usize>>,
    pub(crate) begins: Vec<usize>,
    pub(crate) ends: Vec<usize>,
    /// By construct, its sections: none but for a sections construct.
    pub(crate) sections: Vec<Vec<usize>>,
    pub(crate) threads: usize,
    /// By thread its number.
    pub(crate) numbers: Vec<u16>,
    most_encounters: u8,
    /// The criticals that lock; none by the rules without locks.
    pub(crate) locks: Constructs,
    pub(crate) fault: Option<Fault>,
}

impl<'a> Team<'a> {
    /// A team of so many threads, "numbered from 0". A step that would raise a count above
    /// `most_encounters` is not taken, which makes the number of states finite.
    pub fn new(chart: &'a Chart, threads: usize, most_encounters: u8) -> Team<'a> {
        let numbers: Vec<u16> = (0..threads as u16).collect();
        Team::of_numbers(chart, &numbers, most_encounters)
    }

    /// The threads of these numbers in a team that may be too large to be explored. The others, as far as
    /// no filter is their number, can follow one of these to its barrier when all of these wait at theirs,
    /// going straight where it went in. So what is met here is met in the whole team.
    pub fn of_numbers(chart: &'a Chart, numbers: &[u16], most_encounters: u8) -> Team<'a> {
        let threads = numbers.len();
        assert!((1..=MOST_THREADS).contains(&threads));
        assert!(chart.constructs.len() <= MOST_CONSTRUCTS);
        assert!(chart.nodes.len() <= 1 << NODE_BITS);
        assert!(most_encounters < 1 << COUNT_BITS);
        let constructs = 0..chart.constructs.len();
        Team {
            chart,
            successors: chart.successors(),
            enclosing: (0..chart.nodes.len()).map(|x| chart.enclosing(x)).collect(),
            begins: constructs.clone().map(|c| chart.begin_of(c)).collect(),
            ends: constructs.clone().map(|c| chart.end_of(c)).collect(),
            sections: constructs.map(|c| chart.sections_of(c)).collect(),
            threads,
            numbers: numbers.to_vec(),
            most_encounters,
            locks: 0,
            fault: None,
        }
    }

    /// The same team under a wrong rule.
    pub fn with_fault(mut self, fault: Option<Fault>) -> Team<'a> {
        self.fault = fault;
        self
    }

    /// "All counts begin at 0, all threads at Start"; no section is taken.
    pub fn first_state(&self) -> State {
        State {
            nodes: [self.chart.start as u8; MOST_THREADS],
            encounters: [[0; MOST_CONSTRUCTS]; MOST_THREADS],
            taken: [0; MOST_THREADS],
        }
    }

    /// The nodes of the threads that the team has.
    pub fn places<'s>(&self, state: &'s State) -> &'s [u8] {
        &state.nodes[..self.threads]
    }

    /// "A finished run is one after which all threads are at Finish."
    pub fn is_finished(&self, state: &State) -> bool {
        self.all_at(state, self.chart.finish)
    }

    fn all_at(&self, state: &State, node: usize) -> bool {
        self.places(state).iter().all(|&x| usize::from(x) == node)
    }

    /// Adds to `next` every state to which one step leads.
    pub fn steps(&self, state: &State, next: &mut Vec<State>) {
        self.release(state, next);
        for thread in 0..self.threads {
            self.thread_steps(state, thread, next);
        }
    }

    /// 01's opening: "all m threads are at the same barrier, not Finish. Each takes an edge of its
    /// own choice, in one step; all counts become 0 and a new stretch begins." 02: no section is
    /// taken "after an opening".
    pub(crate) fn release(&self, state: &State, next: &mut Vec<State>) {
        let barrier = usize::from(state.nodes[0]);
        let last = barrier == self.chart.finish && self.fault != Some(Fault::EndToBeginKept);
        let closed = !self.chart.is_barrier(barrier) || last;
        if closed || !self.all_at(state, barrier) {
            return;
        }
        let mut chosen = vec![self.first_state()];
        for thread in 0..self.threads {
            let edges = &self.successors[barrier];
            let choices = |x: &State| {
                let x = *x;
                edges.iter().map(move |&to| x.moved(thread, to))
            };
            chosen = chosen.iter().flat_map(choices).collect();
        }
        next.extend(chosen);
    }

    /// 01's move: "a thread not at a barrier takes an edge, subject to the rest".
    pub(crate) fn thread_steps(&self, state: &State, thread: usize, next: &mut Vec<State>) {
        let at = usize::from(state.nodes[thread]);
        let Node { kind, construct } = self.chart.nodes[at];
        match kind {
            Node::BARRIER => {}
            Node::BEGIN => self.begin_steps(state, thread, construct.into(), next),
            Node::END => self.end_steps(state, thread, construct.into(), next),
            _ => self.edges(state, thread, at, next),
        }
    }

    /// The two rules for ends; any other end is left by an edge.
    fn end_steps(&self, state: &State, thread: usize, construct: usize, next: &mut Vec<State>) {
        if self.kind(construct) == Construct::SECTIONS {
            return self.leave_sections_end(state, thread, construct, next);
        }
        self.edges(state, thread, self.ends[construct], next);
        if self.kind(construct) == Construct::DO {
            self.step_back(state, thread, construct, next);
        }
    }

    pub(crate) fn edges(&self, state: &State, thread: usize, from: usize, next: &mut Vec<State>) {
        let targets = self.successors[from].iter();
        next.extend(targets.map(|&to| state.moved(thread, to)));
    }

    /// The rules for begins; any other begin is left by an edge.
    fn begin_steps(&self, state: &State, thread: usize, construct: usize, next: &mut Vec<State>) {
        let (by_edge, straight) = match self.kind(construct) {
            Construct::SECTIONS => {
                return self.leave_sections_begin(state, thread, construct, next);
            }
            Construct::MASTER => self.masked_steps(thread, construct),
            Construct::SINGLE => {
                let first = self.is_first(state, thread, construct);
                (first, !first)
            }
            // "The thread takes an edge or goes straight to the end."
            Construct::DO => (true, true),
            Construct::ORDERED => (!self.is_held(state, thread, construct), false),
            Construct::CRITICAL => (self.is_free(state, thread, construct), false),
            _ => (true, false),
        };
        let Some(left) = self.counted(state, thread, construct) else {
            return;
        };
        if by_edge {
            self.edges(&left, thread, self.begins[construct], next);
        }
        if straight {
            let uncounted = self.fault == Some(Fault::StraightUncounted);
            let left = if uncounted { state } else { &left };
            next.push(left.moved(thread, self.ends[construct]));
        }
    }

    /// "The thread leaving for the k-th time in this stretch takes an edge if no thread has left it
    /// for the k-th time before." Counts rise by one, so those who have are at k or above.
    fn is_first(&self, state: &State, thread: usize, single: usize) -> bool {
        let this_time = state.encounters[thread][single] + 1;
        (0..self.threads).all(|other| state.encounters[other][single] < this_time)
    }

    /// An ordered's begin "may be left only while no other thread is inside an ordered of the same
    /// do with the same count for that do".
    fn is_held(&self, state: &State, thread: usize, ordered: usize) -> bool {
        let of_do = self.chart.constructs[ordered].parent;
        let count = |x: usize| state.encounters[x][usize::from(of_do)];
        let in_ordered = |x: usize| {
            let around = &self.enclosing[usize::from(state.nodes[x])];
            let is_same = |&c: &usize| {
                self.kind(c) == Construct::ORDERED && self.chart.constructs[c].parent == of_do
            };
            around.iter().any(is_same)
        };
        (0..self.threads)
            .any(|other| other != thread && in_ordered(other) && count(other) == count(thread))
    }

    /// "At the do's end it may also step to a node that an edge leads to from the begin, in the
    /// same meeting": the begin is not left again, so no count is raised.
    fn step_back(&self, state: &State, thread: usize, construct: usize, next: &mut Vec<State>) {
        let kept = match self.fault {
            Some(Fault::StepBackCounted) => self.counted(state, thread, construct),
            _ => Some(*state),
        };
        if let Some(kept) = kept {
            self.edges(&kept, thread, self.begins[construct], next);
        }
    }

    /// The state with one more leaving of a begin counted, or none at the bound.
    pub(crate) fn counted(&self, state: &State, thread: usize, construct: usize) -> Option<State> {
        let mut state = *state;
        let kind = self.kind(construct);
        if matches!(
            kind,
            Construct::SINGLE | Construct::DO | Construct::SECTIONS
        ) {
            let count = &mut state.encounters[thread][construct];
            if *count == self.most_encounters {
                return None;
            }
            *count += 1;
        }
        Some(state)
    }

    pub(crate) fn kind(&self, construct: usize) -> u8 {
        self.chart.constructs[construct].kind
    }
}
