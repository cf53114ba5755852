//! The archive's calls, through the safe wrapper, as the numbers that C gets, a region by C's number too.
//! All bytes that are lent to them stand between pages that may not be touched. And the proved programs,
//! run as they are.

mod agreement;
pub mod edits;
mod guarded;
pub mod programs;
pub mod regions;
pub mod sizes;
pub mod traces;

use bohrali::{Counts, Refusal, Region, Size, Verdict};
use guarded::Guarded;

/// Longer than any chart, list or result of the tests.
const ROOM: usize = 600_000;

/// The calls, with the bytes to be lent to them; `claims` for lists of either kind and for traces.
pub struct Archive {
    chart: Guarded,
    claims: Guarded,
    out: Guarded,
}

impl Default for Archive {
    fn default() -> Archive {
        Archive::new()
    }
}

impl Archive {
    pub fn new() -> Archive {
        Archive {
            chart: Guarded::new(ROOM),
            claims: Guarded::new(ROOM),
            out: Guarded::new(ROOM),
        }
    }

    pub fn admit(&mut self, chart: &[u8]) -> i64 {
        self.chart.with(chart, |lent| {
            number(bohrali::admit(lent), |counts| {
                let Counts {
                    nodes,
                    barriers,
                    phases,
                } = counts;
                nodes + 256 * barriers + 65_536 * phases
            })
        })
    }

    /// Distances into a buffer, which afterwards holds what the call left there.
    pub fn distances(&mut self, chart: &[u8], region: usize, out: &mut [u8]) -> i64 {
        self.write(chart, region, out, bohrali::distances)
    }

    pub fn judge(&mut self, chart: &[u8], region: usize, claims: &[u8]) -> i64 {
        self.judge_by(chart, claims, |chart, claims| {
            bohrali::judge(chart, region.into(), claims)
        })
    }

    pub fn judge_sized(&mut self, chart: &[u8], region: usize, size: usize, claims: &[u8]) -> i64 {
        self.judge_by(chart, claims, |chart, claims| {
            bohrali::judge_sized(chart, region.into(), Size(size), claims)
        })
    }

    fn judge_by(
        &mut self,
        chart: &[u8],
        claims: &[u8],
        call: impl Fn(&[u8], &[u8]) -> Result<Verdict, Refusal>,
    ) -> i64 {
        let lists = &mut self.claims;
        self.chart.with(chart, |chart| {
            lists.with(claims, |claims| {
                number(call(chart, claims), |verdict| match verdict {
                    Verdict::Pass => 0,
                    Verdict::Fail(index) => index + 1,
                })
            })
        })
    }

    /// The chart of a listing into a buffer, which afterwards holds what the call left there.
    pub fn listing(&mut self, text: &[u8], out: &mut [u8]) -> i64 {
        let outs = &mut self.out;
        self.chart.with(text, |text| {
            outs.with_mut(out, |out| {
                number(bohrali::listing(text, out), |bytes| bytes)
            })
        })
    }

    /// Locks, in the same way.
    pub fn locks(&mut self, chart: &[u8], region: usize, out: &mut [u8]) -> i64 {
        self.write(chart, region, out, bohrali::locks)
    }

    /// Locks for teams of a size, in the same way.
    pub fn locks_sized(&mut self, chart: &[u8], region: usize, size: usize, out: &mut [u8]) -> i64 {
        self.write(chart, region, out, |chart, region, out| {
            bohrali::locks_sized(chart, region, Size(size), out)
        })
    }

    pub fn pair(&mut self, chart: &[u8], region: usize, a: usize, b: usize) -> i64 {
        self.chart.with(chart, |lent| {
            let answer = bohrali::pair(lent, region.into(), a, b);
            number(answer, |answer| answer as usize)
        })
    }

    pub fn pair_sized(
        &mut self,
        chart: &[u8],
        region: usize,
        size: usize,
        a: usize,
        b: usize,
    ) -> i64 {
        self.chart.with(chart, |lent| {
            let answer = bohrali::pair_sized(lent, region.into(), Size(size), a, b);
            number(answer, |answer| answer as usize)
        })
    }

    /// Phases, in the same way.
    pub fn phases(&mut self, chart: &[u8], region: usize, out: &mut [u8]) -> i64 {
        self.write(chart, region, out, bohrali::phases)
    }

    /// Races of a list of accesses, in the same way.
    pub fn races(&mut self, chart: &[u8], region: usize, list: &[u8], out: &mut [u8]) -> i64 {
        let Archive {
            chart: charts,
            claims: lists,
            out: outs,
        } = self;
        charts.with(chart, |chart| {
            lists.with(list, |list| {
                outs.with_mut(out, |out| {
                    number(bohrali::races(chart, region.into(), list, out), |bytes| {
                        bytes
                    })
                })
            })
        })
    }

    /// Sheet, in the same way.
    pub fn sheet(&mut self, chart: &[u8], region: usize, out: &mut [u8]) -> i64 {
        self.write(chart, region, out, bohrali::sheet)
    }

    /// Sheet for teams of a size, in the same way.
    pub fn sheet_sized(&mut self, chart: &[u8], region: usize, size: usize, out: &mut [u8]) -> i64 {
        self.write(chart, region, out, |chart, region, out| {
            bohrali::sheet_sized(chart, region, Size(size), out)
        })
    }

    pub fn witnessed(
        &mut self,
        chart: &[u8],
        region: usize,
        size: usize,
        trace: &[u8],
        [a, b]: [usize; 2],
    ) -> i64 {
        let traces = &mut self.claims;
        self.chart.with(chart, |chart| {
            traces.with(trace, |trace| {
                let shown = bohrali::witnessed(chart, region.into(), Size(size), trace, a, b);
                number(shown, usize::from)
            })
        })
    }

    fn write(
        &mut self,
        chart: &[u8],
        region: usize,
        out: &mut [u8],
        call: impl Fn(&[u8], Region, &mut [u8]) -> Result<usize, Refusal>,
    ) -> i64 {
        let outs = &mut self.out;
        self.chart.with(chart, |chart| {
            outs.with_mut(out, |out| {
                number(call(chart, region.into(), out), |bytes| bytes)
            })
        })
    }
}

fn number<T>(result: Result<T, Refusal>, value: impl Fn(T) -> usize) -> i64 {
    match result {
        Ok(given) => value(given) as i64,
        Err(refusal) => -i64::from(refusal.number()),
    }
}
