//! Masked instead of master (02, Note 5): edition 2, whose construct records have a filter last, and
//! rule 2 by filters. Edition 1 "is still read, with filter 0".

use crate::answers::Rules;
use crate::chart::Construct;

/// The second edition.
pub const EDITION: u16 = 2;

/// "Edition 2 has 6-byte construct records."
pub const CONSTRUCT_BYTES: usize = 6;

/// The bytes of a construct record of an edition.
pub fn construct_bytes(edition: u16) -> usize {
    match edition {
        EDITION => CONSTRUCT_BYTES,
        _ => Construct::BYTES,
    }
}

/// The filter of a construct record: its last two bytes where it has six, else 0.
pub fn filter(record: &[u8]) -> u16 {
    match record {
        [_, _, _, _, low, high] => u16::from_le_bytes([*low, *high]),
        _ => 0,
    }
}

impl Construct {
    /// "0 except on kind 2": a filter on another kind.
    pub fn is_wrongly_filtered(&self) -> bool {
        self.kind != Construct::MASTER && self.filter != 0
    }
}

impl Rules {
    /// 2: "both inside masked constructs of the same filter".
    pub(crate) fn both_in_masked_of_one_filter(&self, a: usize, b: usize) -> bool {
        self.filters(a)
            .any(|filter| self.filters(b).any(|x| x == filter))
    }

    /// The filters of the masked constructs that a node is inside.
    pub fn filters(&self, node: usize) -> impl Iterator<Item = u16> + '_ {
        self.around(node, Construct::MASTER)
            .map(|masked| self.chart.constructs[masked].filter)
    }
}
