//! Five of the calls as C sees them: lent bytes in, one signed 64-bit number out. A refusal is its
//! number negated and leaves the lent bytes as found; bytes past a result keep their values. "Each call
//! but Admit .. names a region, or 255 for the outermost"; 23 is refused "straight after 10".

use crate::answers::Rules;
use crate::phases::Phases;
use crate::regions::{read, Region};
use crate::sizes::Teams;
use crate::Counts;

/// Bytes that Phases writes for one node.
pub const PHASE_BYTES: usize = 16;

/// Admit: "nodes + 256 × barriers + 65,536 × phases".
pub fn admit(chart: &[u8]) -> i64 {
    number(crate::admit(chart).map(|counts| {
        let Counts {
            nodes,
            barriers,
            phases,
        } = counts;
        (nodes + 256 * barriers + 65_536 * phases) as i64
    }))
}

/// Phases: "16 bytes a node: starts, ends, 8 bytes each, bit b for barrier b".
pub fn phases(chart: &[u8], region: u64, out: &mut [u8]) -> i64 {
    number(read(chart, region).and_then(|region| try_phases(&region, out)))
}

/// Pair: "1 to 10, 13, or the answer".
pub fn pair(chart: &[u8], region: u64, a: u64, b: u64) -> i64 {
    number(read(chart, region).and_then(|region| try_pair(&region, Teams::OfAnySize, a, b)))
}

/// Sheet: "n rows of n answers, one byte each; 255 where either node is a barrier".
pub fn sheet(chart: &[u8], region: u64, out: &mut [u8]) -> i64 {
    number(read(chart, region).and_then(|region| try_sheet(&region, Teams::OfAnySize, out)))
}

/// Judge: 0 for a pass, or the index plus 1 of the first pair answered 0.
pub fn judge(chart: &[u8], region: u64, claims: &[u8]) -> i64 {
    number(read(chart, region).and_then(|region| try_judge(&region, Teams::OfAnySize, claims)))
}

pub(crate) fn number(result: Result<i64, u8>) -> i64 {
    result.unwrap_or_else(|refusal| -i64::from(refusal))
}

/// A node outside the region has no starts and no ends: it is written "as a barrier".
fn try_phases(region: &Region, out: &mut [u8]) -> Result<i64, u8> {
    let Phases { starts, ends, .. } = Phases::of(&region.chart);
    let length = PHASE_BYTES * region.place.len();
    let result = result_part(out, length)?;
    for (record, place) in result.chunks_mut(PHASE_BYTES).zip(&region.place) {
        let (starts, ends) = place.map_or((0, 0), |x| (starts[x], ends[x]));
        record[..8].copy_from_slice(&starts.to_le_bytes());
        record[8..].copy_from_slice(&ends.to_le_bytes());
    }
    Ok(length as i64)
}

pub(crate) fn try_pair(region: &Region, teams: Teams, a: u64, b: u64) -> Result<i64, u8> {
    let (a, b) = (region.judged(a)?, region.judged(b)?);
    let teams = teams.checked()?;
    let rules = Rules::of(region.chart.clone());
    Ok(rules.answer_for(teams, a, b).into())
}

/// What no pair can name, a barrier or a node outside, is written as a barrier.
pub(crate) fn try_sheet(region: &Region, teams: Teams, out: &mut [u8]) -> Result<i64, u8> {
    let nodes = region.place.len();
    let result = result_part(out, nodes * nodes)?;
    let teams = teams.checked()?;
    let rules = Rules::of(region.chart.clone());
    for (a, row) in result.chunks_mut(nodes).enumerate() {
        for (b, answer) in row.iter_mut().enumerate() {
            let judged = (region.judged(a as u64), region.judged(b as u64));
            *answer = match judged {
                (Ok(a), Ok(b)) => rules.answer_for(teams, a, b),
                _ => Rules::BARRIER,
            };
        }
    }
    Ok((nodes * nodes) as i64)
}

pub(crate) fn try_judge(region: &Region, teams: Teams, claims: &[u8]) -> Result<i64, u8> {
    if !claims.len().is_multiple_of(2) {
        return Err(12);
    }
    let judged = claims.iter().map(|&node| region.judged(node.into()));
    let judged: Vec<usize> = judged.collect::<Result<_, _>>()?;
    let teams = teams.checked()?;
    let rules = Rules::of(region.chart.clone());
    let answer = |pair: &[usize]| rules.answer_for(teams, pair[0], pair[1]);
    let concurrent = |pair: &[usize]| answer(pair) == Rules::CONCURRENT;
    let failed = judged.chunks(2).position(concurrent);
    Ok(failed.map_or(0, |index| index as i64 + 1))
}

/// Row 11: "buffer shorter than the result"; otherwise the part that the result fills.
pub fn result_part(out: &mut [u8], length: usize) -> Result<&mut [u8], u8> {
    out.get_mut(..length).ok_or(11)
}
