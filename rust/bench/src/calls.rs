//! What is measured: the calls of one implementation, for the outermost region and teams of any size, each
//! by C's one number.

use bohrali::Region::Outermost;
use bohrali::{Counts, Refusal, Size, Verdict};

/// A call that writes.
type Writer = fn(&[u8], &mut [u8]) -> i64;

/// One that is handed a list, too.
type ListWriter = fn(&[u8], &[u8], &mut [u8]) -> i64;

/// One that is handed a trace, the size of its team and two nodes.
type Replayer = fn(&[u8], &[u8], usize, [usize; 2]) -> i64;

/// The calls by one implementation. Pointers, so that none of them is merged with the loop that
/// measures it.
#[derive(Clone, Copy)]
pub struct Calls {
    pub admit: fn(&[u8]) -> i64,
    pub phases: Writer,
    /// Where the implementation has it.
    pub distances: Option<Writer>,
    pub pair: fn(&[u8], usize, usize) -> i64,
    pub sheet: Writer,
    pub judge: fn(&[u8], &[u8]) -> i64,
    /// Where the implementation has it, as the next two.
    pub races: Option<ListWriter>,
    pub locks: Option<Writer>,
    pub witnessed: Option<Replayer>,
}

/// The archive of this tree.
pub const LIBRARY: Calls = Calls {
    admit: |chart| {
        let packed = |counts: Counts| counts.nodes + 256 * counts.barriers + 65_536 * counts.phases;
        number(bohrali::admit(chart), packed)
    },
    phases: |chart, out| number(bohrali::phases(chart, Outermost, out), |bytes| bytes),
    distances: Some(|chart, out| number(bohrali::distances(chart, Outermost, out), |bytes| bytes)),
    pair: |chart, a, b| {
        number(bohrali::pair(chart, Outermost, a, b), |answer| {
            answer as usize
        })
    },
    sheet: |chart, out| number(bohrali::sheet(chart, Outermost, out), |bytes| bytes),
    judge: |chart, claims| {
        number(
            bohrali::judge(chart, Outermost, claims),
            |verdict| match verdict {
                Verdict::Pass => 0,
                Verdict::Fail(index) => index + 1,
            },
        )
    },
    races: Some(|chart, accesses, out| {
        number(bohrali::races(chart, Outermost, accesses, out), |bytes| {
            bytes
        })
    }),
    locks: Some(|chart, out| number(bohrali::locks(chart, Outermost, out), |bytes| bytes)),
    witnessed: Some(|chart, trace, team, [a, b]| {
        let shown = bohrali::witnessed(chart, Outermost, Size(team), trace, a, b);
        number(shown, usize::from)
    }),
};

fn number<T>(result: Result<T, Refusal>, value: impl Fn(T) -> usize) -> i64 {
    match result {
        Ok(accepted) => value(accepted) as i64,
        Err(refusal) => -i64::from(refusal.number()),
    }
}

/// The best Rust known, with the fewest edges to every node worked out in each call.
pub const WITH_LEVELS: Calls = tuned::<true>();

/// The best Rust known, without them.
pub const WITHOUT_LEVELS: Calls = tuned::<false>();

const fn tuned<const LEVELS: bool>() -> Calls {
    Calls {
        admit: tuned::admit::<LEVELS>,
        phases: tuned::phases::<LEVELS>,
        distances: if LEVELS { Some(tuned::distances) } else { None },
        pair: tuned::pair::<LEVELS>,
        sheet: tuned::sheet::<LEVELS>,
        judge: tuned::judge::<LEVELS>,
        races: Some(tuned::races::<LEVELS>),
        locks: Some(tuned::locks::<LEVELS>),
        witnessed: if LEVELS { None } else { Some(witnessed) },
    }
}

/// A replay has no use for levels.
fn witnessed(chart: &[u8], trace: &[u8], team: usize, [a, b]: [usize; 2]) -> i64 {
    tuned::replay::witnessed(chart, trace, team, a, b)
}
