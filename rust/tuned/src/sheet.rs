//! The sheet, by sets of nodes: a row is a union over the bits of its node's masks, and eight answers
//! are one look-up.

use crate::answers::Marked;
use crate::bits::{bits, join_at, Masks, Nodes, ONES, SPREAD};
use crate::tables::MOST_NODES;

/// By bit of a mask the nodes that have it.
pub type Having = [[u64; 64]; 3];

type Row = [u8; MOST_NODES];

/// The row that was worked out last, and what of.
struct Last {
    row: Row,
    starts: u64,
    ends: u64,
    excludes: u64,
    /// The nodes that share a start, or an end.
    by_start: Nodes,
    by_end: Nodes,
}

/// What all rows are worked out from.
struct Sheet<'a> {
    marked: &'a Marked<'a>,
    having_start: &'a Having,
    having_end: &'a Having,
    having_exclusion: &'a Having,
    /// 255 for a barrier.
    closed: [u64; MOST_NODES / 8],
}

impl Marked<'_> {
    #[inline(always)]
    pub fn write_sheet(&self, out: &mut [u8]) -> Result<i64, u8> {
        let n = self.size();
        let out = out.get_mut(..n * n).ok_or(11u8)?;
        let excludes = self.all_excludes();
        // Where there are no constructs no exclusion is asked for.
        let excluding = if self.read.constructs.count == 0 {
            0
        } else {
            n
        };
        let sheet = Sheet {
            marked: self,
            having_start: &having::<false>(&self.marks.starts, n),
            having_end: &having::<false>(&self.marks.ends, n),
            having_exclusion: &having::<true>(&excludes, excluding),
            closed: self.closed(),
        };
        let mut last = Last::new();
        for node in 0..n {
            let rest = &mut out[node * n..];
            let at = node & 255;
            let starts = self.marks.starts[at];
            if starts == 0 {
                put(rest, &[255; MOST_NODES], n);
                continue;
            }
            last.work_out(&sheet, starts, self.marks.ends[at], excludes[at]);
            put(rest, &last.row, n);
        }
        Ok((n * n) as i64)
    }

    #[inline(always)]
    fn closed(&self) -> [u64; MOST_NODES / 8] {
        let mut closed = [0; MOST_NODES / 8];
        for (word, kinds) in closed
            .iter_mut()
            .zip(self.read.nodes.kind.as_chunks::<8>().0)
        {
            let kinds = u64::from_le_bytes(*kinds);
            *word = (kinds & !(kinds >> 1) & ONES).wrapping_mul(255);
        }
        closed
    }
}

impl Last {
    #[inline(always)]
    fn new() -> Last {
        Last {
            row: [0; MOST_NODES],
            starts: 0,
            ends: 0,
            excludes: 0,
            by_start: [0; 3],
            by_end: [0; 3],
        }
    }

    /// Works a row out, unless it is the same one: neighbours often have the same masks.
    #[inline(always)]
    fn work_out(&mut self, sheet: &Sheet, starts: u64, ends: u64, excludes: u64) {
        if (starts ^ self.starts) | (ends ^ self.ends) | (excludes ^ self.excludes) == 0 {
            return;
        }
        if starts != self.starts {
            self.by_start = sharing(starts, sheet.having_start);
        }
        if ends != self.ends {
            self.by_end = sharing(ends, sheet.having_end);
        }
        (self.starts, self.ends, self.excludes) = (starts, ends, excludes);
        let together: Nodes = std::array::from_fn(|word| self.by_start[word] & self.by_end[word]);
        write_set(&mut self.row, together.map(|word| !word), &sheet.closed);
        if excludes != 0 {
            let ruled = sharing(excludes, sheet.having_exclusion);
            let answer = sheet.marked.answer_of(excludes);
            for word in 0..3 {
                for bit in bits(together[word] & ruled[word]) {
                    self.row[64 * word + bit] |= answer;
                }
            }
        }
    }
}

/// Writes a byte for each node: 1 for those of a set, 255 for barriers.
#[inline(always)]
fn write_set(row: &mut Row, set: Nodes, closed: &[u64; MOST_NODES / 8]) {
    let bytes = set.map(u64::to_le_bytes);
    let eights = row.as_chunks_mut::<8>().0.iter_mut();
    for ((eight, &byte), closed) in eights.zip(bytes.as_flattened()).zip(closed) {
        *eight = (SPREAD[usize::from(byte)] | closed).to_le_bytes();
    }
}

/// By bit the nodes whose masks have it. Neighbours with one mask go together; without `ALL` a node with
/// mask 0 goes with those before it.
#[inline(always)]
pub fn having<const ALL: bool>(masks: &Masks, n: usize) -> Having {
    let mut having = [[0u64; 64]; 3];
    for (word, having) in having.iter_mut().enumerate() {
        if 64 * word >= n {
            break;
        }
        let here = &masks[64 * word..n.min(64 * word + 64)];
        let (mut mask, mut from) = (0, 0);
        for (node, &own) in here.iter().enumerate() {
            if ((own != 0) | ALL) & (own != mask) {
                let below = ones_below(node);
                join_at(having, mask, below ^ from);
                (mask, from) = (own, below);
            }
        }
        join_at(having, mask, ones_below(here.len()) ^ from);
    }
    having
}

/// The bits below a bit, which is at most 64.
#[inline(always)]
fn ones_below(bit: usize) -> u64 {
    match bit {
        64 => !0,
        _ => (1 << bit) - 1,
    }
}

/// The nodes whose masks share a bit with this one.
#[inline(always)]
pub fn sharing(mask: u64, having: &Having) -> Nodes {
    let mut nodes = [0; 3];
    for bit in bits(mask) {
        for word in 0..3 {
            nodes[word] |= having[word][bit];
        }
    }
    nodes
}

/// Writes a row of n answers, and all 192 while there is room: the rows behind it come later.
#[inline(always)]
fn put(rest: &mut [u8], row: &Row, n: usize) {
    match rest.first_chunk_mut::<MOST_NODES>() {
        Some(longest) => *longest = *row,
        None => rest[..n].copy_from_slice(&row[..n]),
    }
}
