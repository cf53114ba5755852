//! The calls of the archive that `BOHRALI_BEFORE` names, as its own header declares them. What a later
//! header adds is left out here.

use crate::calls::Calls;
use bohrali::Region;

const OUTERMOST: usize = Region::OUTERMOST;

// build.rs puts `before_` in front of each name.
extern "C" {
    fn before_bohrali_admit(chart: *const u8, chart_len: usize) -> i64;
    fn before_bohrali_distances(
        chart: *const u8,
        chart_len: usize,
        region: usize,
        out: *mut u8,
        out_len: usize,
    ) -> i64;
    fn before_bohrali_judge(
        chart: *const u8,
        chart_len: usize,
        region: usize,
        claims: *const u8,
        claims_len: usize,
    ) -> i64;
    fn before_bohrali_pair(
        chart: *const u8,
        chart_len: usize,
        region: usize,
        a: usize,
        b: usize,
    ) -> i64;
    fn before_bohrali_phases(
        chart: *const u8,
        chart_len: usize,
        region: usize,
        out: *mut u8,
        out_len: usize,
    ) -> i64;
    fn before_bohrali_sheet(
        chart: *const u8,
        chart_len: usize,
        region: usize,
        out: *mut u8,
        out_len: usize,
    ) -> i64;
}

/// A call of the other archive that writes.
type Writer = unsafe extern "C" fn(*const u8, usize, usize, *mut u8, usize) -> i64;

fn write(call: Writer, chart: &[u8], out: &mut [u8]) -> i64 {
    // SAFETY: pointers and lengths are those of slices, lent for the call alone.
    unsafe {
        call(
            chart.as_ptr(),
            chart.len(),
            OUTERMOST,
            out.as_mut_ptr(),
            out.len(),
        )
    }
}

/// The other archive.
// SAFETY of all: as above.
pub const BEFORE: Calls = Calls {
    admit: |chart| unsafe { before_bohrali_admit(chart.as_ptr(), chart.len()) },
    phases: |chart, out| write(before_bohrali_phases, chart, out),
    distances: Some(|chart, out| write(before_bohrali_distances, chart, out)),
    pair: |chart, a, b| unsafe {
        before_bohrali_pair(chart.as_ptr(), chart.len(), OUTERMOST, a, b)
    },
    sheet: |chart, out| write(before_bohrali_sheet, chart, out),
    judge: |chart, claims| unsafe {
        before_bohrali_judge(
            chart.as_ptr(),
            chart.len(),
            OUTERMOST,
            claims.as_ptr(),
            claims.len(),
        )
    },
    races: None,
    locks: None,
    witnessed: None,
};
