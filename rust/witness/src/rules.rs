//! The team rules, as the planner needs them: what a step of a thread asks for, and what it does. Whether a
//! run is one by the rules is not for these to say: the proved library certifies it (`certify`).

use crate::view::{Role, View};
use bohrali::layout::ConstructKind;
use bohrali::limits::MOST_CONSTRUCTS;

/// "The state is each thread's node and, per thread and construct, how often it has left that construct's begin"
/// since the last release, and which sections it has taken in its latest instance of each sections construct.
#[derive(Clone, Debug)]
pub struct State {
    pub at: Vec<usize>,
    pub encounters: Vec<[u32; MOST_CONSTRUCTS]>,
    pub taken: Vec<u64>,
}

impl State {
    /// All threads at one node, as after a release: nothing counted, no section taken.
    pub fn fresh(threads: usize, node: usize) -> State {
        State {
            at: vec![node; threads],
            encounters: vec![[0; MOST_CONSTRUCTS]; threads],
            taken: vec![0; threads],
        }
    }

    pub fn threads(&self) -> usize {
        self.at.len()
    }

    pub fn all_at(&self, node: usize) -> bool {
        self.at.iter().all(|&v| v == node)
    }

    fn others(&self, thread: usize) -> impl Iterator<Item = usize> {
        (0..self.threads()).filter(move |&other| other != thread)
    }

    /// At a single's begin: no thread has left it as often as this one will have.
    pub fn is_first(&self, thread: usize, single: usize) -> bool {
        let before = self.encounters[thread][single];
        self.others(thread)
            .all(|other| self.encounters[other][single] <= before)
    }

    /// No other thread is inside an ordered of a do in one instance of it.
    pub fn ordered_free(&self, view: &View, thread: usize, of_do: usize, instance: u32) -> bool {
        let holds = |other: usize| {
            view.ordered_of(self.at[other]) == Some(of_do)
                && self.encounters[other][of_do] == instance
        };
        !self.others(thread).any(holds)
    }

    /// A section that no thread has taken in one instance of its sections construct.
    pub fn is_untaken(&self, sections: usize, section: usize, instance: u32) -> bool {
        (0..self.threads()).all(|other| {
            let count = self.encounters[other][sections];
            count < instance || count == instance && self.taken[other] >> section & 1 == 0
        })
    }

    /// What is left to take in one instance of a sections construct.
    pub fn untaken<'s>(
        &'s self,
        view: &'s View,
        sections: usize,
        instance: u32,
    ) -> impl Iterator<Item = usize> + 's {
        let own = view.constructs[sections].sections.iter().copied();
        own.filter(move |&x| self.is_untaken(sections, x, instance))
    }

    /// No other thread is inside a critical of this name. The team rules do not ask for it; a run in which it
    /// holds at each critical's begin keeps the locks.
    pub fn is_unlocked(&self, view: &View, thread: usize, name: u16) -> bool {
        let inside = |other: usize| view.names(self.at[other]).any(|x| x == name);
        !self.others(thread).any(inside)
    }

    /// Whether a thread, not at a barrier, may step to a node.
    pub fn may_step(&self, view: &View, thread: usize, to: usize) -> bool {
        let at = self.at[thread];
        let edge = view.next[at].contains(&to);
        match view.role[at] {
            Role::Outside | Role::Barrier => false,
            Role::Plain => edge,
            Role::Begin(c) => self.may_leave_begin(view, thread, c, to),
            Role::End(c) => match view.kind(c) {
                ConstructKind::Do => edge || view.next[view.constructs[c].begin].contains(&to),
                ConstructKind::Sections => {
                    let instance = self.encounters[thread][c];
                    self.may_deal(view, c, instance, to, edge)
                }
                _ => edge,
            },
        }
    }

    fn may_leave_begin(&self, view: &View, thread: usize, c: usize, to: usize) -> bool {
        let own = &view.constructs[c];
        let straight = to == own.end;
        let (enters, passes) = match own.kind {
            ConstructKind::Single => {
                let first = self.is_first(thread, c);
                (first, !first)
            }
            ConstructKind::Master => (thread == own.filter, thread != own.filter),
            ConstructKind::Do => (true, true),
            ConstructKind::Ordered => {
                let free =
                    |d: usize| self.ordered_free(view, thread, d, self.encounters[thread][d]);
                (own.parent.is_some_and(free), false)
            }
            ConstructKind::Sections => {
                let instance = self.encounters[thread][c] + 1;
                return self.may_deal(view, c, instance, to, straight);
            }
            _ => (true, false),
        };
        enters && view.next[own.begin].contains(&to) || passes && straight
    }

    /// At the begin or end of a sections construct: to a section that is left, or on once none is.
    fn may_deal(&self, view: &View, c: usize, instance: u32, to: usize, on: bool) -> bool {
        let mut left = self.untaken(view, c, instance).peekable();
        match left.peek() {
            None => on,
            Some(_) => left.any(|x| view.constructs[x].begin == to),
        }
    }

    /// What a thread's step to a node does.
    pub fn step(&mut self, view: &View, thread: usize, to: usize) {
        let from = view.role[self.at[thread]];
        if let Role::Begin(c) = from {
            self.encounters[thread][c] += 1;
            let own = view.constructs[c].sections.iter();
            self.taken[thread] &= own.fold(!0, |mask, x| mask & !(1 << x));
        }
        if let (Role::Begin(_) | Role::End(_), Role::Begin(x)) = (from, view.role[to]) {
            if view.kind(x) == ConstructKind::Section {
                self.taken[thread] |= 1 << x;
            }
        }
        self.at[thread] = to;
    }

    /// The barrier, not Finish, at which all threads stand.
    pub fn gathered(&self, view: &View) -> Option<usize> {
        let barrier = *self.at.first()?;
        let closed = view.role[barrier] != Role::Barrier || barrier == view.finish;
        (!closed && self.all_at(barrier)).then_some(barrier)
    }

    /// Two different threads, the first of them at a and the other at b.
    pub fn together(&self, a: usize, b: usize) -> Option<[usize; 2]> {
        let pairs = |t: usize| self.others(t).map(move |u| [t, u]);
        (0..self.threads())
            .flat_map(pairs)
            .find(|&[t, u]| self.at[t] == a && self.at[u] == b)
    }
}
