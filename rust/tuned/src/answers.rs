//! What the calls make of an admitted chart and its marks.

use crate::bits::{join_at, Masks};
use crate::constructs::at;
use crate::marks::{Marks, Read};
use std::ops::Range;

/// An admitted chart with its marks.
pub struct Marked<'a> {
    pub read: &'a Read<'a>,
    pub marks: &'a Marks,
}

impl Marked<'_> {
    #[inline(always)]
    pub fn size(&self) -> usize {
        self.read.tables.nodes.len()
    }

    /// Admit's number.
    #[inline(always)]
    pub fn counts(&self) -> i64 {
        let nodes = self.size() + 256 * self.read.nodes.barriers;
        nodes as i64 + 65_536 * i64::from(self.phases())
    }

    /// The number of distinct pairs of a start and an end that some node has. Neighbours often have the
    /// same ones, which are then added once.
    #[inline(always)]
    fn phases(&self) -> u32 {
        let Marks { starts, ends, .. } = self.marks;
        let mut ends_of_start = [0u64; 64];
        let mut last = (0, 0);
        let n = self.size();
        for (&start, &end) in starts[..n].iter().zip(&ends[..n]) {
            if (start == 0) | ((start ^ last.0) | (end ^ last.1) == 0) {
                continue;
            }
            last = (start, end);
            join_at(&mut ends_of_start, start, end);
        }
        let counted = &ends_of_start[..self.read.nodes.barriers];
        counted.iter().map(|ends| ends.count_ones()).sum()
    }

    /// The exclusions that hold for each of some nodes: two nodes that share one are never met together.
    /// A node has at most one.
    #[inline(always)]
    fn excludes(&self, nodes: Range<usize>) -> impl Iterator<Item = u64> + '_ {
        let Read {
            nodes: table,
            constructs,
            ..
        } = *self.read;
        let inside = table.inside(nodes, constructs);
        inside.map(|x| constructs.excludes[at(x)] & self.marks.kept)
    }

    #[inline(always)]
    pub fn all_excludes(&self) -> Masks {
        let mut all = [0; 256];
        if self.read.constructs.count != 0 {
            for (entry, excludes) in all.iter_mut().zip(self.excludes(0..self.size())) {
                *entry = excludes;
            }
        }
        all
    }

    /// The answer that shared exclusions give.
    #[inline(always)]
    pub fn answer_of(&self, shared: u64) -> u8 {
        if shared == 0 {
            0
        } else if shared & self.read.constructs.masters != 0 {
            2
        } else if shared & self.read.constructs.singles != 0 {
            3
        } else if shared & self.read.constructs.parts == 0 {
            4
        } else {
            5
        }
    }

    /// Whether row 13 lets two numbers pass.
    #[inline(always)]
    pub fn are_open(&self, a: usize, b: usize) -> bool {
        let nodes = 0..self.size().min(256);
        let starts = &self.marks.starts;
        nodes.contains(&a) && nodes.contains(&b) && starts[a] != 0 && starts[b] != 0
    }

    #[inline(always)]
    pub fn pair(&self, a: usize, b: usize) -> Result<i64, u8> {
        let Marks { starts, ends, .. } = self.marks;
        if !self.are_open(a, b) {
            return Err(13);
        }
        if starts[a] & starts[b] == 0 || ends[a] & ends[b] == 0 {
            return Ok(1);
        }
        let shared = [a, b]
            .into_iter()
            .flat_map(|x| self.excludes(x..x + 1))
            .fold(!0, |shared, own| shared & own);
        Ok(self.answer_of(shared).into())
    }

    #[inline(always)]
    pub fn judge(&self, claims: &[u8]) -> Result<i64, u8> {
        let (pairs, odd) = claims.as_chunks::<2>();
        if !odd.is_empty() {
            return Err(12);
        }
        let excludes = self.all_excludes();
        let Marks { starts, ends, .. } = self.marks;
        let closed = |node: u8| starts[usize::from(node)] == 0;
        let mut refused = false;
        for (index, &[a, b]) in pairs.iter().enumerate() {
            // A node number that row 13 refuses has no starts, and so is never met here.
            refused |= closed(a) | closed(b);
            let (a, b) = (usize::from(a), usize::from(b));
            let met = (starts[a] & starts[b] != 0)
                & (ends[a] & ends[b] != 0)
                & (excludes[a] & excludes[b] == 0);
            if met {
                let rest = pairs[index + 1..].as_flattened().iter();
                refused |= rest.fold(false, |refused, &node| refused | closed(node));
                return if refused {
                    Err(13)
                } else {
                    Ok(index as i64 + 1)
                };
            }
        }
        if refused {
            Err(13)
        } else {
            Ok(0)
        }
    }

    #[inline(always)]
    pub fn write_phases(&self, out: &mut [u8]) -> Result<i64, u8> {
        let length = 16 * self.size();
        let records = out.get_mut(..length).ok_or(11u8)?.as_chunks_mut::<16>().0;
        let masks = self.marks.starts.iter().zip(&self.marks.ends);
        for (record, (starts, ends)) in records.iter_mut().zip(masks) {
            record[..8].copy_from_slice(&starts.to_le_bytes());
            record[8..].copy_from_slice(&ends.to_le_bytes());
        }
        Ok(length as i64)
    }

    #[inline(always)]
    pub fn write_levels(&self, out: &mut [u8]) -> Result<i64, u8> {
        let length = self.size();
        let result = out.get_mut(..length).ok_or(11u8)?;
        result.copy_from_slice(&self.marks.levels[..length]);
        Ok(length as i64)
    }
}
