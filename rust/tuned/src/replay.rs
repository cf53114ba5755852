//! Replay of a recorded run, for the outermost region.

mod steps;
mod team;

use crate::bits::{bits, packed};
use crate::marks::Read;
use crate::tables::MOST_CONSTRUCTS;
use crate::{admitted, with_marks};
use steps::Steps;
use team::{Met, Team};

pub const MOST_THREADS: usize = 8;

/// What a replay says: of a forbidden entry its index.
#[derive(Clone, Copy, Debug, PartialEq, Eq)]
pub enum Replayed {
    Finished,
    Unfinished,
    Forbidden(usize),
}

/// A thread's record.
#[derive(Clone, Copy, Debug)]
pub struct Record {
    pub node: u8,
    /// By construct, how often its begin was left since the last opening.
    pub counts: [u64; MOST_CONSTRUCTS],
    /// The set of the sections that it has taken, each in its latest meeting.
    pub taken: u64,
}

impl Record {
    pub const BLANK: Record = Record {
        node: 0,
        counts: [0; MOST_CONSTRUCTS],
        taken: 0,
    };
}

/// Replay: rows 1 to 10, 22 and 11, then the records of the team's threads and the sheet of the pairs met,
/// as at the last legal entry.
#[inline(never)]
pub fn replay(
    chart: &[u8],
    trace: &[u8],
    threads: usize,
    records: &mut [Record; MOST_THREADS],
    out: &mut [u8],
) -> Result<Replayed, u8> {
    admitted::<false, false, _>(chart, |marked| {
        let (play, entries) = checked(trace, threads)?;
        let n = marked.size();
        let sheet = out.get_mut(..n * n).ok_or(11u8)?;
        let mut met = [[0; 256]; 256];
        let said = play(marked.read, entries, records, &mut met);
        write_sheet(&met, n, sheet);
        Ok(said)
    })
}

/// Witnessed: rows 1 to 10, 13 and 22, then whether the trace is finished and two nodes were met.
#[inline(never)]
pub fn witnessed(chart: &[u8], trace: &[u8], threads: usize, a: usize, b: usize) -> i64 {
    with_marks::<false, false>(chart, |marked| {
        if !marked.are_open(a, b) {
            return Err(13);
        }
        let (play, entries) = checked(trace, threads)?;
        let mut records = [Record::BLANK; MOST_THREADS];
        let mut met = [[0; 256]; 256];
        let said = play(marked.read, entries, &mut records, &mut met);
        let shown = said == Replayed::Finished && (met[a][b] | met[b][a]) == 1;
        Ok(shown.into())
    })
}

/// The replay by a team of some size.
type Play = fn(&Read, &[[u8; 2]], &mut [Record; MOST_THREADS], &mut Met) -> Replayed;

/// Row 22, or the replay and the entries.
#[inline(always)]
fn checked(trace: &[u8], threads: usize) -> Result<(Play, &[[u8; 2]]), u8> {
    let (entries, odd) = trace.as_chunks::<2>();
    let play: Play = match threads {
        _ if !odd.is_empty() => return Err(22),
        1 => play::<1>,
        2 => play::<2>,
        3 => play::<3>,
        4 => play::<4>,
        5 => play::<5>,
        6 => play::<6>,
        7 => play::<7>,
        8 => play::<8>,
        _ => return Err(22),
    };
    Ok((play, entries))
}

/// The replay by a team of M. Its loops over the team have a fixed length.
#[inline(never)]
fn play<const M: usize>(
    read: &Read,
    entries: &[[u8; 2]],
    records: &mut [Record; MOST_THREADS],
    met: &mut Met,
) -> Replayed {
    let steps = Steps::of(read);
    let mut team = Team::<M>::at_start(met);
    let mut each = entries.iter();
    let forbidden = each.position(|&[t, to]| !team.take(&steps, t.into(), to));
    let said = match forbidden {
        Some(index) => Replayed::Forbidden(index),
        None if team.are_all_at(steps.finish) => Replayed::Finished,
        None => Replayed::Unfinished,
    };
    for (t, record) in records.iter_mut().take(M).enumerate() {
        *record = team.record(t);
    }
    said
}

/// The pairs that were met one way round or the other. Marks beyond the nodes are no pairs.
#[inline(always)]
fn write_sheet(met: &Met, n: usize, sheet: &mut [u8]) {
    sheet.fill(0);
    for (a, row) in met[..n].iter().enumerate() {
        let eights = &row.as_chunks::<8>().0[..n.div_ceil(8)];
        for (i, &eight) in eights.iter().enumerate() {
            for j in bits(packed(u64::from_le_bytes(eight))) {
                let b = 8 * i + j;
                sheet[a * n + b] = 1;
                sheet[b * n + a] = 1;
            }
        }
    }
}
