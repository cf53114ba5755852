//! Rows 5, 7 and 8, row 6 for nodes, and what the node table says. The table is taken apart into bytes and sets of
//! nodes: loops over bytes of one kind are vectorised, loops over records are not.

use crate::bits::{members, packed, Nodes as Set, ONES};
use crate::constructs::{at, Constructs, PARALLEL};
use crate::tables::{Tables, MOST_BARRIERS, MOST_NODES, NONE};
use std::ops::Range;

const PLAIN: u8 = 0;
pub const BARRIER: u8 = 1;
const BEGIN: u8 = 2;
const END: u8 = 3;

/// What the node table says. Bit 8 of a scope is a barrier's.
pub struct Nodes {
    pub kind: [u8; MOST_NODES],
    number: [u8; MOST_NODES],
    pub barriers: usize,
    /// Whether an inner region has too many barriers.
    crowded: bool,
    /// The node of each barrier.
    pub barrier: [u8; 64],
    /// 1 for a barrier; where there are no constructs.
    pub closed: [u8; 256],
    /// The scope in which an edge leaves each node; where there are constructs, as the next.
    pub leaving: [u16; 256],
    /// The scope in which an edge arrives there.
    pub arriving: [u16; 256],
    pub begin: [u8; 64],
    pub end: [u8; 64],
}

impl Nodes {
    #[inline(always)]
    pub fn new() -> Nodes {
        Nodes {
            kind: [0; MOST_NODES],
            number: [0; MOST_NODES],
            barriers: 0,
            crowded: false,
            barrier: [0; 64],
            closed: [0; 256],
            leaving: [0; 256],
            arriving: [0; 256],
            begin: [0; 64],
            end: [0; 64],
        }
    }

    /// Reads the table, `row_6` telling whether row 6 applies to a construct.
    #[inline(always)]
    pub fn read(&mut self, t: &Tables, constructs: &Constructs, row_6: bool) -> Result<(), u8> {
        if !self.take_apart(t, constructs.count) {
            return Err(5);
        }
        if row_6 || (constructs.dealt != 0 && self.any_stray(t.nodes.len(), constructs.dealt)) {
            return Err(6);
        }
        let [barriers, begins, ends] = self.by_kind(constructs.count != 0);
        if constructs.count == 0 {
            for (closed, &kind) in self.closed.iter_mut().zip(&self.kind) {
                *closed = u8::from(kind == BARRIER);
            }
        } else if !self.place_frames(constructs, &begins, &ends) {
            return Err(7);
        }
        let last = t.nodes.len() - 1;
        let enclosed = self.kind[0] == BARRIER && self.kind.get(last) == Some(&BARRIER);
        match self.place_barriers(&barriers) && enclosed {
            true => Ok(()),
            false => Err(8),
        }
    }

    /// The innermost construct that each of some nodes is inside, a section's begin and end counted as
    /// inside it.
    #[inline(always)]
    pub fn inside<'s>(
        &'s self,
        nodes: Range<usize>,
        constructs: &'s Constructs,
    ) -> impl Iterator<Item = u8> + 's {
        let records = self.kind[nodes.clone()].iter().zip(&self.number[nodes]);
        records.map(|(&kind, &number)| match kind >= BEGIN {
            true => constructs.framed[at(number)],
            false => number,
        })
    }

    /// The construct that each of some nodes lies in.
    #[inline(always)]
    pub fn lying<'s>(
        &'s self,
        nodes: Range<usize>,
        constructs: &'s Constructs,
    ) -> impl Iterator<Item = u8> + 's {
        let records = self.kind[nodes.clone()].iter().zip(&self.number[nodes]);
        records.map(|(&kind, &number)| match kind >= BEGIN {
            true => constructs.parent[at(number)],
            false => number,
        })
    }

    /// Kinds and numbers, as the outermost region has them; false if row 5 applies.
    #[inline(always)]
    fn take_apart(&mut self, t: &Tables, constructs: usize) -> bool {
        let n = t.nodes.len().min(MOST_NODES);
        // A loop for each byte: both are vectorised.
        for (kind, record) in self.kind[..n].iter_mut().zip(t.nodes) {
            *kind = u32::from_le_bytes(*record) as u8;
        }
        for (number, record) in self.number[..n].iter_mut().zip(t.nodes) {
            *number = (u32::from_le_bytes(*record) >> 8) as u8;
        }
        let count = constructs as u8;
        let mut wrong = 0;
        for (&kind, &number) in self.kind[..n].iter().zip(&self.number[..n]) {
            // 0 for none, else 1 to the number of constructs; a begin or an end has one.
            let next = number.wrapping_add(1);
            let most = if kind == BARRIER { 0 } else { count };
            wrong |= u8::from(kind > END) | u8::from(next > most) | u8::from(next < kind >> 1);
        }
        // A barrier with a number is wrong, or one of an inner region.
        wrong == 0 || self.take_inner_barriers(t, n, count)
    }

    /// Makes the barriers of inner regions plain nodes, and counts them; false if row 5 applies.
    #[inline(never)]
    fn take_inner_barriers(&mut self, t: &Tables, n: usize, constructs: u8) -> bool {
        let mut counts = [0usize; 64];
        for node in 0..n {
            let number = self.number[node];
            let framed = node != 0 && node != n - 1;
            let fine = match self.kind[node] {
                PLAIN => number == NONE || number < constructs,
                BARRIER if number == NONE => true,
                BARRIER => framed && t.constructs.kind_of(number) == Some(PARALLEL),
                BEGIN | END => number < constructs,
                _ => false,
            };
            if !fine {
                return false;
            }
            if self.kind[node] == BARRIER && number != NONE {
                self.kind[node] = PLAIN;
                counts[at(number)] += 1;
            }
        }
        // A region's begin and end are barriers too.
        self.crowded = counts.iter().any(|&count| count + 2 > MOST_BARRIERS);
        true
    }

    /// Row 6: whether a plain node lies directly in a sections construct.
    #[inline(always)]
    fn any_stray(&self, n: usize, dealt: u64) -> bool {
        let n = n.min(MOST_NODES);
        let mut stray = 0;
        for (&kind, &number) in self.kind[..n].iter().zip(&self.number[..n]) {
            stray |= dealt >> at(number) & u64::from(kind == PLAIN);
        }
        stray != 0
    }

    /// The nodes of kinds 1, 2 and 3; without constructs there are none of the last two.
    #[inline(always)]
    fn by_kind(&self, constructs: bool) -> [Set; 3] {
        let mut sets = [[0u64; 3]; 3];
        for (i, eight) in self.kind.as_chunks::<8>().0.iter().enumerate() {
            let low = u64::from_le_bytes(*eight);
            let high = low >> 1;
            sets[0][i / 8] |= packed(low & !high & ONES) << (8 * (i % 8));
            if constructs {
                sets[1][i / 8] |= packed(high & !low & ONES) << (8 * (i % 8));
                sets[2][i / 8] |= packed(high & low & ONES) << (8 * (i % 8));
            }
        }
        sets
    }

    /// Scopes, begins and ends; false if row 7 applies.
    #[inline(always)]
    fn place_frames(&mut self, constructs: &Constructs, begins: &Set, ends: &Set) -> bool {
        let scopes = self.leaving.iter_mut().zip(&mut self.arriving);
        for ((leaving, arriving), (&kind, &number)) in
            scopes.zip(self.kind.iter().zip(&self.number))
        {
            let scope = u16::from(number) | u16::from(kind == BARRIER) << 8;
            (*leaving, *arriving) = (scope, scope);
        }
        let (mut begun, mut ended, mut frames) = (0u64, 0u64, 0);
        for node in members(begins) {
            let own = at(self.number[node]);
            self.begin[own] = node as u8;
            self.arriving[node] = constructs.parent[own].into();
            begun |= 1 << own;
            frames += 1;
        }
        for node in members(ends) {
            let own = at(self.number[node]);
            self.end[own] = node as u8;
            self.leaving[node] = constructs.parent[own].into();
            ended |= 1 << own;
            frames += 1;
        }
        let all = (1u64 << constructs.count) - 1;
        begun == all && ended == all && frames == 2 * constructs.count
    }

    /// Numbers the barriers; false if there are too many.
    #[inline(always)]
    fn place_barriers(&mut self, barriers: &Set) -> bool {
        let mut count = 0;
        for node in members(barriers) {
            self.barrier[count & 63] = node as u8;
            count += 1;
        }
        self.barriers = count;
        count <= MOST_BARRIERS && !self.crowded
    }
}
