//! Regions of known size (02, Note 10): Pair, Sheet and Judge "gain a second form with a team size from 1
//! to 1,024; the form without a size is kept".

use crate::answers::Rules;
use crate::calls::{number, try_judge, try_pair, try_sheet};
use crate::regions::read;
use std::ops::RangeInclusive;

/// The sizes that may be named.
pub const SIZES: RangeInclusive<u64> = 1..=1024;

/// The teams that a pair is asked about.
#[derive(Clone, Copy, Debug, PartialEq, Eq)]
pub enum Teams {
    OfAnySize,
    /// "Teams of just that size."
    Of(u64),
}

impl Teams {
    /// Row 21: "any other size", for each call its last row.
    pub fn checked(self) -> Result<Teams, u8> {
        match self {
            Teams::Of(size) if !SIZES.contains(&size) => Err(21),
            _ => Ok(self),
        }
    }
}

impl Rules {
    /// "Ahead of all other rules come answer 6 (never: the team has one thread) and answer 7."
    pub fn answer_for(&self, teams: Teams, a: usize, b: usize) -> u8 {
        match teams {
            Teams::Of(1) => 6,
            Teams::Of(size) if self.is_missed(size, a) || self.is_missed(size, b) => 7,
            _ => self.answer(a, b),
        }
    }

    /// 7: "a node is inside a masked whose filter is at or over the size".
    fn is_missed(&self, size: u64, node: usize) -> bool {
        self.filters(node).any(|filter| u64::from(filter) >= size)
    }
}

/// Pair, for teams of a size.
pub fn pair(chart: &[u8], region: u64, size: u64, a: u64, b: u64) -> i64 {
    number(read(chart, region).and_then(|region| try_pair(&region, Teams::Of(size), a, b)))
}

/// Sheet, for teams of a size.
pub fn sheet(chart: &[u8], region: u64, size: u64, out: &mut [u8]) -> i64 {
    number(read(chart, region).and_then(|region| try_sheet(&region, Teams::Of(size), out)))
}

/// Judge: "a claim passes or fails by the finished runs of teams of just that size".
pub fn judge(chart: &[u8], region: u64, size: u64, claims: &[u8]) -> i64 {
    number(read(chart, region).and_then(|region| try_judge(&region, Teams::Of(size), claims)))
}
