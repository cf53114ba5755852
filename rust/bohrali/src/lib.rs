//! Whether two threads of one OpenMP team can be at two nodes of a parallel region together, in a run
//! that finishes: the calls of the proved library, on slices. What a chart is and what each call does
//! is documented in include/bohrali.h; here C's one number becomes a `Result`, C's constants are
//! `limits`, `layout`, `Answer`, `Race`, `Lock` and `Refusal`, by the same words, a region's number is a
//! `Region`, a team's size a `Size` and an access an `Access`.

mod access;
mod answer;
mod archive;
mod edits;
pub mod layout;
pub mod limits;
mod lock;
mod refusal;
mod region;
mod size;

pub use access::{Access, AccessKind, Race};
pub use answer::Answer;
pub use edits::{insert_edge, remove_edge, Receipt};
pub use lock::Lock;
pub use refusal::Refusal;
pub use region::Region;
pub use size::Size;

/// The counts of an admitted chart, barriers and phases of the outermost region.
#[derive(Clone, Copy, Debug, PartialEq, Eq)]
pub struct Counts {
    pub nodes: usize,
    pub barriers: usize,
    pub phases: usize,
}

/// Whether all claims hold, or else the index of the first that does not.
#[derive(Clone, Copy, Debug, PartialEq, Eq)]
pub enum Verdict {
    Pass,
    Fail(usize),
}

/// The counts of a chart that is admitted.
pub fn admit(chart: &[u8]) -> Result<Counts, Refusal> {
    // SAFETY: pointer and length are those of a slice, which the call only reads.
    let number = unsafe { archive::bohrali_admit(chart.as_ptr(), chart.len()) };
    accepted(number).map(|counts| Counts {
        nodes: counts % 256,
        barriers: counts / 256 % 256,
        phases: counts / 65_536,
    })
}

/// Writes for each node in a region, a byte each, the fewest edges on a barrier-free path to it from any
/// barrier, and gives the number of bytes written. Barriers, and nodes outside the region, have
/// `layout::DISTANCE_AT_BARRIER`.
pub fn distances(chart: &[u8], region: Region, out: &mut [u8]) -> Result<usize, Refusal> {
    write(archive::bohrali_distances, chart, region, out)
}

/// Whether all claims about a region hold: pairs of node numbers, of which each is said never to have two
/// threads of the region's team at its two nodes together, in a run that finishes.
pub fn judge(chart: &[u8], region: Region, claims: &[u8]) -> Result<Verdict, Refusal> {
    // SAFETY: as above, for both slices; the region is a number.
    let number = unsafe {
        archive::bohrali_judge(
            chart.as_ptr(),
            chart.len(),
            region.number(),
            claims.as_ptr(),
            claims.len(),
        )
    };
    accepted(number).map(verdict)
}

/// The same for teams of just one size.
pub fn judge_sized(
    chart: &[u8],
    region: Region,
    size: Size,
    claims: &[u8],
) -> Result<Verdict, Refusal> {
    // SAFETY: as above; the size is a number.
    let number = unsafe {
        archive::bohrali_judge_sized(
            chart.as_ptr(),
            chart.len(),
            region.number(),
            size.0,
            claims.as_ptr(),
            claims.len(),
        )
    };
    accepted(number).map(verdict)
}

/// Writes the chart of a listing, the shape of a region as text, and gives its length. The chart is admitted.
/// include/bohrali.h has the grammar.
pub fn listing(text: &[u8], out: &mut [u8]) -> Result<usize, Refusal> {
    // SAFETY: as above, for `text` in place of the chart; `out` is lent for the call alone and does not overlap it.
    accepted(unsafe {
        archive::bohrali_listing(text.as_ptr(), text.len(), out.as_mut_ptr(), out.len())
    })
}

/// Writes for each construct of the chart whether its lock can be dropped in a region, a byte each, and gives
/// the number of bytes written. Each is the number of a `Lock`, or `Lock::NO_CRITICAL`.
pub fn locks(chart: &[u8], region: Region, out: &mut [u8]) -> Result<usize, Refusal> {
    write(archive::bohrali_locks, chart, region, out)
}

/// The same for teams of just one size.
pub fn locks_sized(
    chart: &[u8],
    region: Region,
    size: Size,
    out: &mut [u8],
) -> Result<usize, Refusal> {
    write_sized(archive::bohrali_locks_sized, chart, region, size, out)
}

/// The answer for two nodes of a region, which may be equal.
pub fn pair(chart: &[u8], region: Region, a: usize, b: usize) -> Result<Answer, Refusal> {
    // SAFETY: as above; a and b are numbers.
    let number =
        unsafe { archive::bohrali_pair(chart.as_ptr(), chart.len(), region.number(), a, b) };
    accepted(number).map(|answer| Answer::ALL[answer])
}

/// The same for teams of just one size.
pub fn pair_sized(
    chart: &[u8],
    region: Region,
    size: Size,
    a: usize,
    b: usize,
) -> Result<Answer, Refusal> {
    // SAFETY: as above.
    let number = unsafe {
        archive::bohrali_pair_sized(chart.as_ptr(), chart.len(), region.number(), size.0, a, b)
    };
    accepted(number).map(|answer| Answer::ALL[answer])
}

/// Writes the starts and ends of each node in a region, `layout::BYTES_PHASES` bytes, and gives the number
/// of bytes written. Nodes outside the region have none.
pub fn phases(chart: &[u8], region: Region, out: &mut [u8]) -> Result<usize, Refusal> {
    write(archive::bohrali_phases, chart, region, out)
}

/// Writes the races of all pairs of a list of accesses in a region, a byte each: those of the first access
/// with itself and all behind it, then those of the second, and so on. Gives the number of bytes written.
/// `Access::bytes` makes the list, and each byte written is the number of a `Race`.
pub fn races(
    chart: &[u8],
    region: Region,
    accesses: &[u8],
    out: &mut [u8],
) -> Result<usize, Refusal> {
    // SAFETY: as above; `out` overlaps neither slice.
    accepted(unsafe {
        archive::bohrali_races(
            chart.as_ptr(),
            chart.len(),
            region.number(),
            accesses.as_ptr(),
            accesses.len(),
            out.as_mut_ptr(),
            out.len(),
        )
    })
}

/// Writes the answers of all pairs in a region, row by row, and gives the number of bytes written. Nodes
/// outside the region are written as barriers.
pub fn sheet(chart: &[u8], region: Region, out: &mut [u8]) -> Result<usize, Refusal> {
    write(archive::bohrali_sheet, chart, region, out)
}

/// The same for teams of just one size.
pub fn sheet_sized(
    chart: &[u8],
    region: Region,
    size: Size,
    out: &mut [u8],
) -> Result<usize, Refusal> {
    write_sized(archive::bohrali_sheet_sized, chart, region, size, out)
}

/// Whether a trace, `layout::BYTES_ENTRY` bytes an entry, is a run that finishes, of a region's team of just
/// one size, and has two threads at two nodes together. Where it is, their answer is `Answer::Concurrent`.
pub fn witnessed(
    chart: &[u8],
    region: Region,
    size: Size,
    trace: &[u8],
    a: usize,
    b: usize,
) -> Result<bool, Refusal> {
    // SAFETY: as above, for both slices.
    let number = unsafe {
        archive::bohrali_witnessed(
            chart.as_ptr(),
            chart.len(),
            region.number(),
            size.0,
            trace.as_ptr(),
            trace.len(),
            a,
            b,
        )
    };
    accepted(number).map(|shown| shown == 1)
}

/// A call of the archive that writes for a region of a chart.
type Writer = unsafe extern "C" fn(*const u8, usize, usize, *mut u8, usize) -> i64;

fn write(call: Writer, chart: &[u8], region: Region, out: &mut [u8]) -> Result<usize, Refusal> {
    // SAFETY: pointers and lengths are those of slices; the call only reads `chart`, and `out`, which does not
    // overlap it, is lent for the call alone. The region is a number.
    accepted(unsafe {
        call(
            chart.as_ptr(),
            chart.len(),
            region.number(),
            out.as_mut_ptr(),
            out.len(),
        )
    })
}

/// The same for teams of a size.
type SizedWriter = unsafe extern "C" fn(*const u8, usize, usize, usize, *mut u8, usize) -> i64;

fn write_sized(
    call: SizedWriter,
    chart: &[u8],
    region: Region,
    size: Size,
    out: &mut [u8],
) -> Result<usize, Refusal> {
    // SAFETY: as above; the size is a number.
    accepted(unsafe {
        call(
            chart.as_ptr(),
            chart.len(),
            region.number(),
            size.0,
            out.as_mut_ptr(),
            out.len(),
        )
    })
}

/// C's number of a list that is not refused.
fn verdict(after: usize) -> Verdict {
    match after.checked_sub(1) {
        None => Verdict::Pass,
        Some(index) => Verdict::Fail(index),
    }
}

/// C's number: what a call gives, or a refusal's number negated.
fn accepted(number: i64) -> Result<usize, Refusal> {
    usize::try_from(number).map_err(|_| {
        let named = |x: &Refusal| i64::from(x.number()) == -number;
        let refusal = Refusal::ALL.into_iter().find(named);
        refusal.expect("a refusal's number, negated")
    })
}
