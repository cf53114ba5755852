//! Row 10 and the marks of a chart: starts, ends, the constructs that return and, where they are asked
//! for, levels.

use crate::bits::{bits, Masks};
use crate::constructs::{at, Constructs};
use crate::edges::{ends_of, Edges};
use crate::levels::{self, Levels, AT_BARRIER, FAR};
use crate::loops::Loops;
use crate::nodes::Nodes;
use crate::sweeps::{close_long, Swept, FEW};
use crate::tables::Tables;
use std::hint::black_box;

/// A chart that passed rows 1 to 9.
pub struct Read<'a> {
    pub tables: Tables<'a>,
    pub nodes: &'a Nodes,
    pub constructs: &'a Constructs,
    pub edges: &'a Edges,
}

impl Read<'_> {
    /// Constructs that may return and whose return takes exclusions away: none where no edge falls and no construct ends
    /// before it begins.
    #[inline(always)]
    pub fn may_return(&self) -> u64 {
        let Nodes { begin, end, .. } = self.nodes;
        let frames = begin.iter().zip(end);
        let back = frames.fold(0, |back, (begin, end)| back | u8::from(begin > end));
        match self.edges.down().is_empty() && back == 0 {
            true => 0,
            false => self.constructs.returnable(),
        }
    }
}

/// The marks of an admitted chart.
pub struct Marks {
    /// 0 for a barrier and where there is no node; never 0 for another node, and so the next.
    pub starts: Masks,
    pub ends: Masks,
    /// Of the exclusions, those that hold: without constructs that return, and the sections in them.
    pub kept: u64,
    pub levels: Levels,
}

impl Marks {
    #[inline(always)]
    pub fn new() -> Marks {
        Marks {
            starts: [0; 256],
            ends: [0; 256],
            kept: !0,
            levels: [FAR; 256],
        }
    }

    /// Fills the marks; false if row 10 applies. Of some constructs it is asked whether they return: their bits are in a
    /// table of their own with `LEFT`, and else behind those of the barriers, where there must be room.
    #[inline(always)]
    pub fn find<const LEFT: bool, const LEVELS: bool>(&mut self, read: &Read, asked: u64) -> bool {
        let barriers = &read.nodes.barrier[..read.nodes.barriers];
        self.seed(read.edges, barriers);
        let mut left = [0u64; 256];
        let table = if LEFT { &mut left } else { &mut self.starts };
        for (place, construct) in bits(asked).enumerate() {
            let end = usize::from(read.nodes.end[construct]);
            table[end] |= 1 << bit_of::<LEFT>(read, place);
        }
        let measured = self.close::<LEFT, LEVELS>(read, asked != 0, &mut left);
        if asked != 0 {
            self.keep::<LEFT>(read, asked, &left);
        }
        if LEVELS {
            if !measured {
                levels::fill(&read.tables, read.nodes, read.edges, &mut self.levels);
            }
            for &barrier in barriers {
                self.levels[usize::from(barrier)] = AT_BARRIER;
            }
            // Most calls do not look at them.
            black_box(&self.levels);
        }
        self.all_on_paths(read)
    }

    /// Keeps the exclusions of constructs that do not return, and the bits of barriers alone.
    #[inline(always)]
    fn keep<const LEFT: bool>(&mut self, read: &Read, asked: u64, left: &Masks) {
        let table = if LEFT { left } else { &self.starts };
        for (place, construct) in bits(asked).enumerate() {
            let begin = table[usize::from(read.nodes.begin[construct])];
            self.kept &= !((begin >> bit_of::<LEFT>(read, place) & 1) << construct);
        }
        // A section's exclusion goes with its sections construct.
        for part in bits(read.constructs.parts) {
            let dealt = at(read.constructs.parent[part]);
            self.kept &= !((!self.kept >> dealt & 1) << part);
        }
        if !LEFT {
            let own = u64::MAX >> (64 - read.nodes.barriers);
            let starts = &mut self.starts[..read.tables.nodes.len()];
            starts.iter_mut().for_each(|mask| *mask &= own);
        }
    }

    /// As `find`, where there is no room; seldom, so that it is not inlined.
    #[inline(never)]
    pub fn find_apart<const LEVELS: bool>(&mut self, read: &Read, asked: u64) -> bool {
        self.find::<true, LEVELS>(read, asked)
    }

    /// The masks of nodes next to barriers; a barrier has its own bit as its end.
    #[inline(always)]
    fn seed(&mut self, edges: &Edges, barriers: &[u8]) {
        let Marks { starts, ends, .. } = self;
        for (number, &barrier) in barriers.iter().enumerate() {
            ends[usize::from(barrier)] = 1 << number;
        }
        for &edge in edges.out() {
            let (from, to) = ends_of(edge);
            starts[usize::from(to)] |= ends[usize::from(from)];
        }
        for &edge in edges.into() {
            let (from, to) = ends_of(edge);
            ends[usize::from(from)] |= ends[usize::from(to)];
        }
    }

    /// Closes the masks along the edges; whether the levels have been found with them.
    #[inline(always)]
    fn close<const LEFT: bool, const LEVELS: bool>(
        &mut self,
        read: &Read,
        asked: bool,
        left: &mut Masks,
    ) -> bool {
        let edges = read.edges;
        let long = edges.up().len() >= FEW;
        let two = long && read.nodes.barriers == 2;
        let closed = if long {
            let n = read.tables.nodes.len();
            let marked = match two {
                true => self.close_two::<LEVELS>(read),
                false => {
                    close_long::<false, true>(edges, &mut self.starts, n, None)
                        && close_long::<true, true>(edges, &mut self.ends, n, None)
                }
            };
            let more = if LEFT { &mut *left } else { &mut self.starts };
            marked && (!(LEFT || two && asked) || close_long::<false, false>(edges, more, n, None))
        } else {
            self.close_short::<LEFT, LEVELS>(edges, left)
        };
        if !closed {
            self.close_by_loops(read, LEFT.then_some(left));
        }
        two || (closed && !long && !levels::are_far(edges))
    }

    /// Sweeps short lists; with `LEVELS` also the levels, unless they are far.
    #[inline(always)]
    fn close_short<const LEFT: bool, const LEVELS: bool>(
        &mut self,
        edges: &Edges,
        left: &mut Masks,
    ) -> bool {
        let mut swept = Swept {
            starts: &mut self.starts,
            left,
            levels: &mut self.levels,
            ends: &mut self.ends,
        };
        if LEVELS && !levels::are_far(edges) {
            levels::sow(edges.out(), swept.levels);
            swept.close::<LEFT, true>(edges)
        } else {
            swept.close::<LEFT, false>(edges)
        }
    }

    /// With two barriers, all nodes have the one start and the one end, or row 10 applies: no sweep is
    /// needed once they have.
    #[inline(always)]
    fn close_two<const LEVELS: bool>(&mut self, read: &Read) -> bool {
        let Marks {
            starts,
            ends,
            levels,
            ..
        } = self;
        let count = read.tables.nodes.len();
        let last = count - 1;
        let started = if LEVELS {
            levels::search(&read.tables, read.nodes, levels);
            for (mask, &level) in starts[..count].iter_mut().zip(&levels[..count]) {
                *mask |= u64::from(level < FAR);
            }
            true
        } else {
            (starts[0], starts[last]) = (1, 1);
            close_long::<false, true>(read.edges, starts, count, Some(1))
        };
        (ends[0], ends[last]) = (2, 2);
        let ended = started && close_long::<true, true>(read.edges, ends, count, Some(2));
        (ends[0], ends[last]) = (1, 2);
        ended
    }

    /// Closes masks that sweeps have not closed.
    #[cold]
    #[inline(never)]
    fn close_by_loops(&mut self, read: &Read, left: Option<&mut Masks>) {
        let barriers = &read.nodes.barrier[..read.nodes.barriers];
        let loops = Loops::of(&read.tables, barriers);
        loops.close::<false>(&mut self.starts);
        loops.close::<true>(&mut self.ends);
        if let Some(left) = left {
            loops.close::<false>(left);
        }
    }

    /// Row 10: each node has a start and an end, and each barrier is on a path from the first barrier to
    /// the last. Then barriers lose their masks.
    #[inline(always)]
    fn all_on_paths(&mut self, read: &Read) -> bool {
        let Marks { starts, ends, .. } = self;
        let barriers = &read.nodes.barrier[..read.nodes.barriers];
        // By barrier the barriers next on a path. All but the last have edges, or row 10 applies, so
        // that they are met in their order.
        let mut next = [0u64; 64];
        let (mut met, mut all, mut before) = (usize::MAX, 0u64, 255u8);
        for &edge in read.edges.out() {
            let (from, to) = ends_of(edge);
            let same = from == before;
            met = met.wrapping_add(usize::from(!same));
            all = if same { all } else { 0 } | ends[usize::from(to)];
            next[met & 63] = all;
            before = from;
        }
        for &barrier in barriers {
            starts[usize::from(barrier)] = 1;
        }
        // The top bit of (x - 1) & !x says that x is 0.
        let mut none = 0;
        let n = read.tables.nodes.len();
        for (&start, &end) in starts[..n].iter().zip(&ends[..n]) {
            none |= (start.wrapping_sub(1) & !start) | (end.wrapping_sub(1) & !end);
        }
        for &barrier in barriers {
            (starts[usize::from(barrier)], ends[usize::from(barrier)]) = (0, 0);
        }
        none >> 63 == 0
            && met.wrapping_add(2) == barriers.len()
            && all_joined(&next, barriers.len())
    }
}

/// The bit of a construct whose return is asked, by its place among them.
#[inline(always)]
fn bit_of<const LEFT: bool>(read: &Read, place: usize) -> usize {
    let first = if LEFT { 0 } else { read.nodes.barriers };
    (first + place) & 63
}

/// Whether each barrier is reached from the first and reaches the last.
#[inline(always)]
fn all_joined(next: &[u64; 64], count: usize) -> bool {
    let all = u64::MAX >> (64 - count);
    let (mut from, mut to) = (1u64, 1u64 << (count - 1));
    loop {
        let before = (from, to);
        for b in 0..count {
            let more = from | next[b & 63];
            from = if from >> b & 1 != 0 { more } else { from };
            let p = count - 1 - b;
            let more = to | 1 << p;
            to = if next[p & 63] & to != 0 { more } else { to };
        }
        if from & to == all {
            return true;
        }
        if before == (from, to) {
            return false;
        }
    }
}
