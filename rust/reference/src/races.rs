//! Race verdicts on variables (02, Note 9), after section 5.1 of the paper: each pair of a list of accesses
//! gets a byte.

use crate::answers::Rules;
use crate::calls::{number, result_part};
use crate::chart::Construct;
use crate::regions::{read, Region};

/// "An access is 4 bytes."
pub const ACCESS_BYTES: usize = 4;
/// The most records of a list.
pub const MOST_ACCESSES: usize = 1_024;

pub const NO_RACE: u8 = 0;
pub const SYNCHRONIZATION_RACE: u8 = 1;
pub const DATA_RACE: u8 = 2;

/// "Node, 1 for write or 0 for read, a 2-byte variable number"; the node by its number in the chart as read
/// for a region.
#[derive(Clone, Copy, Debug, PartialEq, Eq)]
pub struct Access {
    pub node: usize,
    pub write: bool,
    pub variable: u16,
}

/// Row 20: "a list not of whole records or of over 1,024, a write byte over 1, or a node that 13 would
/// refuse"; otherwise the accesses.
pub fn accesses(region: &Region, list: &[u8]) -> Result<Vec<Access>, u8> {
    let (records, part) = list.as_chunks::<ACCESS_BYTES>();
    if !part.is_empty() || records.len() > MOST_ACCESSES {
        return Err(20);
    }
    let access = |&[node, write, low, high]: &[u8; ACCESS_BYTES]| {
        Some(Access {
            node: region.judged(node.into()).ok()?,
            write: [false, true].get(usize::from(write)).copied()?,
            variable: u16::from_le_bytes([low, high]),
        })
    };
    let all: Option<Vec<Access>> = records.iter().map(access).collect();
    all.ok_or(20)
}

impl Rules {
    /// "No race if the variables differ, both read, or the nodes never meet; a synchronization race if both
    /// nodes are inside criticals of a common name; else a possible data race."
    pub fn race(&self, one: &Access, other: &Access) -> u8 {
        let (a, b) = (one.node, other.node);
        let differ = one.variable != other.variable;
        let both_read = !one.write && !other.write;
        if differ || both_read || self.answer(a, b) != Rules::CONCURRENT {
            NO_RACE
        } else if self.names(a).any(|name| self.names(b).any(|x| x == name)) {
            SYNCHRONIZATION_RACE
        } else {
            DATA_RACE
        }
    }

    /// The names of the criticals that a node is inside, at any depth; 0 is the name of unnamed ones.
    pub(crate) fn names(&self, node: usize) -> impl Iterator<Item = u16> + '_ {
        self.around(node, Construct::CRITICAL)
            .map(|critical| self.chart.constructs[critical].name)
    }
}

/// The call: "all pairs of a list are written out, by i and then j, i not above j, one byte each". 20 comes
/// "after 10 and before 11", and after 23.
pub fn write(chart: &[u8], region: u64, list: &[u8], out: &mut [u8]) -> i64 {
    number(read(chart, region).and_then(|region| try_write(&region, list, out)))
}

fn try_write(region: &Region, list: &[u8], out: &mut [u8]) -> Result<i64, u8> {
    let list = accesses(region, list)?;
    let rules = Rules::of(region.chart.clone());
    let pairs = (0..list.len()).flat_map(|i| (i..list.len()).map(move |j| (i, j)));
    let races: Vec<u8> = pairs.map(|(i, j)| rules.race(&list[i], &list[j])).collect();
    result_part(out, races.len())?.copy_from_slice(&races);
    Ok(races.len() as i64)
}
