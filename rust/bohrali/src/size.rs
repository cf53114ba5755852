//! The team size that a call names.

/// The number of threads of a region's team, as where the region carries `NUM_THREADS`. One outside
/// `limits::LEAST_SIZE` to `limits::MOST_SIZE` is refused, and with a trace one over `limits::MOST_THREADS`.
#[derive(Clone, Copy, Debug, PartialEq, Eq, PartialOrd, Ord, Hash)]
pub struct Size(pub usize);
