//! A team on its way. The threads' nodes are one word, a byte each, so that they stay in a register; what a
//! rule asks of all threads is kept up to date with each step, and not looked up thread by thread.

use super::steps::{Role, Steps};
use super::Record;
use crate::bits::{bits, ONES};
use crate::constructs::at;
use crate::tables::MOST_CONSTRUCTS;
use std::cmp::Ordering;

/// In row a and column b 1 where a thread has come to a while another was at b. The last column and row are
/// those of no node.
pub type Met = [[u8; 256]; 256];

/// A team of M threads.
pub struct Team<'m, const M: usize> {
    nodes: u64,
    /// By construct and thread, how often its begin was left.
    counts: [[u64; M]; 64],
    /// The highest of these.
    most: [u64; 64],
    /// By sections construct, what any thread has taken in the latest meeting; says nothing before the first.
    dealt: [u64; 64],
    /// By thread, the sections taken.
    taken: [u64; M],
    /// Constructs whose counts are not all 0.
    left: u64,
    /// Whether all are at one barrier. No edge leads from Finish, so that no opening begins there.
    gathered: bool,
    /// The nodes that an opening leads to, and how many are chosen.
    chosen: u64,
    pending: usize,
    met: &'m mut Met,
}

impl<'m, const M: usize> Team<'m, M> {
    /// One in the byte of each thread.
    const EACH: u64 = ONES >> (64 - 8 * M);

    #[inline(always)]
    pub fn at_start(met: &'m mut Met) -> Team<'m, M> {
        let mut team = Team {
            nodes: 0,
            counts: [[0; M]; 64],
            most: [0; 64],
            dealt: [0; 64],
            taken: [0; M],
            left: 0,
            gathered: true,
            chosen: 0,
            pending: 0,
            met,
        };
        team.mark_all();
        team
    }

    #[inline(always)]
    pub fn are_all_at(&self, node: u8) -> bool {
        self.nodes == u64::from(node) * Self::EACH
    }

    #[inline(always)]
    pub fn record(&self, t: usize) -> Record {
        let mut counts = [0; MOST_CONSTRUCTS];
        for (count, all) in counts.iter_mut().zip(&self.counts) {
            *count = all[t];
        }
        Record {
            node: self.node(t),
            counts,
            taken: self.taken[t],
        }
    }

    /// An entry; false, and nothing done, where the rules forbid it.
    #[inline(always)]
    pub fn take(&mut self, steps: &Steps, t: usize, to: u8) -> bool {
        if self.gathered {
            return self.choose(steps, t, to);
        }
        if t >= M || !self.step(steps, t, to) {
            return false;
        }
        self.mark(t, to);
        self.nodes = self.others(t) ^ u64::from(!to) << (8 * t);
        if steps.role[usize::from(to)] == Role::Barrier {
            self.gathered = self.are_all_at(to);
        }
        true
    }

    /// An entry of an opening.
    #[inline(always)]
    fn choose(&mut self, steps: &Steps, t: usize, to: u8) -> bool {
        if t != self.pending || !steps.leads(self.node(0), to) {
            return false;
        }
        self.chosen |= u64::from(to) << (8 * t);
        self.pending += 1;
        if self.pending == M {
            self.open(steps);
        }
        true
    }

    #[inline(always)]
    fn open(&mut self, steps: &Steps) {
        self.nodes = std::mem::take(&mut self.chosen);
        self.pending = 0;
        for construct in bits(std::mem::take(&mut self.left)) {
            self.counts[construct] = [0; M];
            self.most[construct] = 0;
        }
        self.taken = [0; M];
        self.mark_all();
        let first = self.node(0);
        let barrier = steps.role[usize::from(first)] == Role::Barrier;
        self.gathered = barrier && self.are_all_at(first);
    }

    /// Whether a thread may step to a node, and if so, what the step does but for the node.
    #[inline(always)]
    fn step(&mut self, steps: &Steps, t: usize, to: u8) -> bool {
        let from = self.node(t);
        let along = steps.leads(from, to);
        let c = at(steps.construct[usize::from(from)]);
        let straight = to == steps.end[c];
        let leaves = match steps.role[usize::from(from)] {
            Role::Plain => return along,
            Role::Barrier => return false,
            Role::DoEnd => return along || steps.leads(steps.begin[c], to),
            Role::Sections => return self.enter_sections(steps, t, c, to),
            Role::SectionsEnd => return self.go_on(steps, t, c, to, along),
            Role::Begin => along,
            Role::Do => along || straight,
            Role::Single if self.counts[c][t] == self.most[c] => along,
            Role::Single => straight,
            Role::Masked if t == usize::from(steps.filter[c]) => along,
            Role::Masked => straight,
            Role::Ordered => along && !self.is_held(steps, t, at(steps.parent[c])),
        };
        if leaves {
            self.leave(t, c);
        }
        leaves
    }

    #[inline(always)]
    fn leave(&mut self, t: usize, c: usize) {
        let count = &mut self.counts[c][t];
        *count += 1;
        self.most[c] = self.most[c].max(*count);
        self.left |= 1 << c;
    }

    /// Whether another thread is inside an ordered of the do, with the same count for it.
    #[inline(always)]
    fn is_held(&self, steps: &Steps, t: usize, of_do: usize) -> bool {
        let (others, counts) = (self.others(t), &self.counts[of_do]);
        let mut held = false;
        for k in 0..M {
            let order = steps.order[usize::from(byte(others, k))];
            held |= usize::from(order) == of_do && counts[k] == counts[t];
        }
        held
    }

    /// What nobody has taken in a meeting of a sections construct.
    #[inline(always)]
    fn untaken(&self, steps: &Steps, c: usize, instance: u64) -> u64 {
        match instance.cmp(&self.most[c]) {
            Ordering::Less => 0,
            Ordering::Equal => steps.parts[c] & !self.dealt[c],
            Ordering::Greater => steps.parts[c],
        }
    }

    /// From the begin of a sections construct, to a section that is left or straight to its end.
    #[inline(always)]
    fn enter_sections(&mut self, steps: &Steps, t: usize, c: usize, to: u8) -> bool {
        let instance = self.counts[c][t] + 1;
        let untaken = self.untaken(steps, c, instance);
        let section = untaken & steps.section[usize::from(to)];
        if section == 0 && (untaken != 0 || to != steps.end[c]) {
            return false;
        }
        if instance > self.most[c] {
            self.dealt[c] = 0;
        }
        self.leave(t, c);
        self.taken[t] &= !steps.parts[c];
        self.take_section(t, c, section);
        true
    }

    /// From its end, to a section that is left or along an edge.
    #[inline(always)]
    fn go_on(&mut self, steps: &Steps, t: usize, c: usize, to: u8, along: bool) -> bool {
        let untaken = self.untaken(steps, c, self.counts[c][t]);
        let section = untaken & steps.section[usize::from(to)];
        self.take_section(t, c, section);
        if untaken == 0 {
            along
        } else {
            section != 0
        }
    }

    #[inline(always)]
    fn take_section(&mut self, t: usize, c: usize, section: u64) {
        self.taken[t] |= section;
        self.dealt[c] |= section;
    }

    #[inline(always)]
    fn node(&self, t: usize) -> u8 {
        byte(self.nodes, t)
    }

    /// The nodes with none for a thread.
    #[inline(always)]
    fn others(&self, t: usize) -> u64 {
        self.nodes | 255 << (8 * t)
    }

    /// A thread meets the others at a node.
    #[inline(always)]
    fn mark(&mut self, t: usize, node: u8) {
        let others = self.others(t);
        let row = &mut self.met[usize::from(node)];
        for k in 0..M {
            row[usize::from(byte(others, k))] = 1;
        }
    }

    #[inline(always)]
    fn mark_all(&mut self) {
        for t in 0..M {
            self.mark(t, self.node(t));
        }
    }
}

#[inline(always)]
fn byte(word: u64, place: usize) -> u8 {
    (word >> (8 * place)) as u8
}
