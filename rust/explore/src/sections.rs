//! The team rules of sections (02, Note 1).

use crate::fault::Fault;
use crate::team::{State, Team};

impl Team<'_> {
    /// "On leaving the sections begin .. a thread steps to the begin of some section that no thread
    /// has taken in that meeting, counted as for single": the one that it enters. "Once all are taken,
    /// the begin leads straight to the end." Of this meeting it has then taken that section or none.
    pub(crate) fn leave_sections_begin(
        &self,
        state: &State,
        thread: usize,
        sections: usize,
        next: &mut Vec<State>,
    ) {
        let Some(mut left) = self.counted(state, thread, sections) else {
            return;
        };
        for &section in &self.sections[sections] {
            left.taken[thread] &= !(1 << section);
        }
        let untaken = self.untaken(&left, thread, sections);
        if untaken.is_empty() {
            next.push(left.moved(thread, self.ends[sections]));
        }
        self.take(&left, thread, &untaken, next);
    }

    /// "Or at its end": the same, in the meeting that the thread is in. "Once all are taken, .. the end
    /// is left along an edge."
    pub(crate) fn leave_sections_end(
        &self,
        state: &State,
        thread: usize,
        sections: usize,
        next: &mut Vec<State>,
    ) {
        let untaken = self.untaken(state, thread, sections);
        if untaken.is_empty() || self.fault == Some(Fault::SectionsLeftEarly) {
            self.edges(state, thread, self.ends[sections], next);
        }
        self.take(state, thread, &untaken, next);
    }

    /// Steps to the begin of each of some sections, which is then taken.
    fn take(&self, state: &State, thread: usize, untaken: &[usize], next: &mut Vec<State>) {
        for &section in untaken {
            let mut took = state.moved(thread, self.begins[section]);
            took.taken[thread] |= 1 << section;
            next.push(took);
        }
    }

    /// The sections that no thread has taken in the meeting that a thread is in: "in a meeting that
    /// some thread is past, all are taken".
    fn untaken(&self, state: &State, thread: usize, sections: usize) -> Vec<usize> {
        let count = |x: usize| state.encounters[x][sections];
        let is_past =
            |x: usize| count(x) > count(thread) && self.fault != Some(Fault::PastForgotten);
        let is_asked = |x: &usize| *x == thread || self.fault != Some(Fault::OthersTakenForgotten);
        let is_taken = |section: usize| {
            (0..self.threads).filter(is_asked).any(|x| {
                let has_taken = state.taken[x] >> section & 1 == 1;
                is_past(x) || (count(x) == count(thread) && has_taken)
            })
        };
        let own = self.sections[sections].iter().copied();
        own.filter(|&section| !is_taken(section)).collect()
    }
}
