//! The calls that change a chart in its buffer.

use crate::{accepted, archive, Refusal};

/// What asking about an edge gives, and what it is then put in with. C has no call that asks; the program
/// `try_edge` prints the two numbers.
#[derive(Clone, Copy, Debug, PartialEq, Eq, Hash)]
pub struct Receipt {
    /// The length of the chart that was asked about.
    pub length: usize,
    /// The place of the new record among the edges, from 0: the number of edges below (from, to).
    pub place: usize,
}

/// Puts the edge (from, to) into the chart that the first `chart_len` bytes of a buffer are, where the longer
/// chart is admitted and the receipt still agrees, and gives the longer chart's length. Bytes past it keep
/// their values. A number that no node has, however large, is refused as any edge that is not allowed.
pub fn insert_edge(
    buffer: &mut [u8],
    chart_len: usize,
    receipt: Receipt,
    from: usize,
    to: usize,
) -> Result<usize, Refusal> {
    // SAFETY: pointer and length are those of a slice that is lent for the call alone; the rest are numbers.
    accepted(unsafe {
        archive::bohrali_insert_edge(
            buffer.as_mut_ptr(),
            buffer.len(),
            chart_len,
            receipt.length,
            receipt.place,
            from,
            to,
        )
    })
}

/// Takes the edge (from, to) out of the chart that the first `chart_len` bytes of a buffer are, where the
/// shorter chart is admitted, and gives its length. The two bytes that are freed become 0; bytes past them
/// keep their values. No edge has a number that no node has, however large.
pub fn remove_edge(
    buffer: &mut [u8],
    chart_len: usize,
    from: usize,
    to: usize,
) -> Result<usize, Refusal> {
    // SAFETY: as above.
    accepted(unsafe {
        archive::bohrali_remove_edge(buffer.as_mut_ptr(), buffer.len(), chart_len, from, to)
    })
}
