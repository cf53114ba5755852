//! The criticals that count for the outermost region, and their names.

use crate::answers::Marked;
use crate::bits::Masks;
use crate::constructs::{at, CRITICAL, PARALLEL};
use crate::tables::MOST_CONSTRUCTS;

/// By construct, for what lies in it; constructs of inner regions count for nothing, so that what lies there has what
/// the parallel around it has.
pub struct Criticals {
    /// The criticals around it.
    pub around: [u64; 64],
    /// Their names, each by the first construct that has it.
    pub names: [u64; 64],
    /// Of a critical, the construct that stands for its name.
    pub first: [u8; 64],
    /// All of them.
    pub all: u64,
}

impl Marked<'_> {
    #[inline(always)]
    pub fn criticals(&self) -> Criticals {
        let table = &self.read.tables.constructs;
        let mut records = [[0; 4]; MOST_CONSTRUCTS];
        let mut inner = 0u64;
        let mut criticals = Criticals {
            around: [0; 64],
            names: [0; 64],
            first: [0; 64],
            all: 0,
        };
        for number in 0..self.read.constructs.count.min(MOST_CONSTRUCTS) {
            let record = table.record(number).unwrap_or_default();
            records[number] = record;
            let [kind, parent, name @ ..] = record;
            let deeper = kind == PARALLEL || inner >> at(parent) & 1 == 1;
            inner |= u64::from(deeper) << number;
            let (mut own, mut named) = (0, 0);
            if kind == CRITICAL && !deeper {
                let same = |x: &[u8; 4]| x[0] == CRITICAL && x[2..] == name;
                let first = records.iter().position(same).unwrap_or(0);
                (own, named) = (1 << number, 1 << first);
                criticals.first[number] = first as u8;
            }
            criticals.all |= own;
            criticals.around[number] = criticals.around[at(parent)] | own;
            criticals.names[number] = criticals.names[at(parent)] | named;
        }
        criticals
    }

    /// What each node has of these, by the construct that it lies in.
    #[inline(always)]
    pub fn lying(&self, by_construct: &[u64; 64]) -> Masks {
        let mut masks = [0; 256];
        let lying = self.read.nodes.lying(0..self.size(), self.read.constructs);
        for (entry, construct) in masks.iter_mut().zip(lying) {
            *entry = by_construct[at(construct)];
        }
        masks
    }
}
