//! Whether a trace shows that two nodes are met: it is a finished run with a moment at which two different threads
//! stand at them.

use crate::calls::number;
use crate::regions::{read, Region};
use crate::replay::{replay_in, Outcome};

/// The call: 1 or 0. Rows 1 to 10, 23, 13 of the two nodes, then 22 of trace and team.
pub fn witnessed(chart: &[u8], region: u64, size: u64, trace: &[u8], a: u64, b: u64) -> i64 {
    number(read(chart, region).and_then(|region| try_witnessed(&region, size, trace, a, b)))
}

fn try_witnessed(region: &Region, size: u64, trace: &[u8], a: u64, b: u64) -> Result<i64, u8> {
    region.judged(a)?;
    region.judged(b)?;
    let replay = replay_in(region, trace, size as usize)?;
    let met = replay.sheet[a as usize * region.place.len() + b as usize] == 1;
    Ok((replay.outcome == Outcome::Finished && met).into())
}
