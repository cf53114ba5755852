//! Marking by sweeps over the edges between nodes that are no barriers: along the rising ones in their
//! order and the falling ones against it, until a sweep changes nothing. No branch depends on the chart
//! but the number of sweeps. That is small for nearly all charts; else sweeps are given up.

use crate::bits::Masks;
use crate::edges::{ends_of, Edge, Edges};
use crate::levels::Levels;

/// Sweeps are given up when they have met about so many edges, each as often as it was swept.
pub const MOST: usize = 8_192;

/// Lists of this length and more are swept one direction at a time.
pub const FEW: usize = 200;

/// What masks bring along the edges of a short list.
struct Grown {
    new: u64,
}

impl Grown {
    #[inline(always)]
    fn carry(&mut self, masks: &mut Masks, from: u8, to: u8) {
        let old = masks[usize::from(to)];
        let all = old | masks[usize::from(from)];
        masks[usize::from(to)] = all;
        self.new |= all ^ old;
    }
}

/// The same of levels, the fewest edges of a path. An edge often goes on from the one before: the level
/// written last stays at hand, since a level takes longer than a mask to be ready.
struct Risen {
    node: u8,
    level: u8,
    new: u8,
}

impl Risen {
    #[inline(always)]
    fn carry(&mut self, levels: &mut Levels, from: u8, to: u8) {
        let old = levels[usize::from(to)];
        let read = levels[usize::from(from)];
        let own = if from == self.node { self.level } else { read };
        self.level = (own + 1).min(old);
        self.node = to;
        levels[usize::from(to)] = self.level;
        self.new |= self.level ^ old;
    }
}

/// What is swept: starts, the constructs left behind and levels, where they are asked for, go along the edges, ends
/// against them.
pub struct Swept<'a> {
    pub starts: &'a mut Masks,
    pub left: &'a mut Masks,
    pub levels: &'a mut Levels,
    pub ends: &'a mut Masks,
}

impl Swept<'_> {
    /// Sweeps a short list in both directions at once, so that neither waits for the other's memory;
    /// whether anything has changed.
    #[inline(always)]
    fn sweep<const LEFT: bool, const LEVELS: bool>(&mut self, list: &[Edge]) -> bool {
        let (mut starts, mut left, mut ends) =
            (Grown { new: 0 }, Grown { new: 0 }, Grown { new: 0 });
        let mut levels = Risen {
            node: 255,
            level: 0,
            new: 0,
        };
        for (&ahead, &behind) in list.iter().zip(list.iter().rev()) {
            let ((a, b), (p, q)) = (ends_of(ahead), ends_of(behind));
            starts.carry(self.starts, a, b);
            if LEFT {
                left.carry(self.left, a, b);
            }
            if LEVELS {
                levels.carry(self.levels, a, b);
            }
            ends.carry(self.ends, q, p);
        }
        (starts.new | left.new | ends.new) != 0 || levels.new != 0
    }

    /// Sweeps short lists until a sweep changes nothing, or gives up; one sweep along rising edges closes
    /// them. Whether all is closed.
    #[inline(always)]
    pub fn close<const LEFT: bool, const LEVELS: bool>(&mut self, edges: &Edges) -> bool {
        let (up, down) = (edges.up(), edges.down());
        self.sweep::<LEFT, LEVELS>(up);
        let mut met = 0;
        while self.sweep::<LEFT, LEVELS>(down) && self.sweep::<LEFT, LEVELS>(up) {
            met += up.len() + down.len();
            if met > MOST {
                return false;
            }
        }
        true
    }
}

/// Sweeps a long list, or against it; whether a mask has changed.
#[inline(always)]
pub fn sweep_long<const BACK: bool>(list: &[Edge], masks: &mut Masks) -> bool {
    let mut new = 0;
    let mut carry = |from: u8, to: u8| {
        let old = masks[usize::from(to)];
        let all = old | masks[usize::from(from)];
        masks[usize::from(to)] = all;
        new |= all ^ old;
    };
    if BACK {
        for &edge in list.iter().rev() {
            let (from, to) = ends_of(edge);
            carry(to, from);
        }
    } else {
        for &edge in list {
            let (from, to) = ends_of(edge);
            carry(from, to);
        }
    }
    new != 0
}

/// Sweeps long lists until a sweep changes nothing, or the masks of all nodes have what `full` has; or
/// gives up, with `ALL` also where few nodes have a mask after both lists. Whether all masks are closed.
/// What a barrier's mask is does not matter.
#[inline(always)]
pub fn close_long<const BACK: bool, const ALL: bool>(
    edges: &Edges,
    masks: &mut Masks,
    nodes: usize,
    full: Option<u64>,
) -> bool {
    let (up, down) = (edges.up(), edges.down());
    let is_full = |masks: &Masks| {
        full.is_some_and(|full| masks[..nodes].iter().fold(full, |all, mask| all & mask) == full)
    };
    sweep_long::<BACK>(up, masks);
    let mut met = 0;
    while !is_full(masks)
        && sweep_long::<BACK>(down, masks)
        && !is_full(masks)
        && sweep_long::<BACK>(up, masks)
    {
        if met > MOST || (ALL && met == 0 && is_slow(masks, nodes)) {
            return false;
        }
        met += up.len() + down.len();
    }
    true
}

/// Whether most nodes have no mask yet, by a sample of 16.
#[inline(always)]
fn is_slow(masks: &Masks, nodes: usize) -> bool {
    let unmarked = |&i: &usize| masks[(i * nodes / 17 + 1) & 255] == 0;
    (0..16).filter(unmarked).count() > 12
}
