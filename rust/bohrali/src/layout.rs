//! The numbers that a chart is written with; include/bohrali.h says where each stands and what makes
//! a chart of them.

/// What a node is: byte 0 of its record.
#[derive(Clone, Copy, Debug, PartialEq, Eq, Hash)]
#[repr(u8)]
pub enum NodeKind {
    /// Its number names the innermost construct around it, or `CONSTRUCT_NONE`.
    Plain = 0,
    /// Its number names its region, the parallel that it lies in, or is `CONSTRUCT_NONE` in the outermost.
    Barrier = 1,
    /// Its number names the construct that it opens.
    Begin = 2,
    /// Its number names the construct that it closes.
    End = 3,
}

/// What a construct is: byte 0 of its record.
#[derive(Clone, Copy, Debug, PartialEq, Eq, Hash)]
#[non_exhaustive]
#[repr(u8)]
pub enum ConstructKind {
    Single = 1,
    /// In edition 2 masked, with a filter: the number of the one thread that goes in.
    Master = 2,
    Critical = 3,
    Do = 4,
    Ordered = 5,
    /// What deals out its sections, each to one thread.
    Sections = 6,
    /// One section of a `Sections`.
    Section = 7,
    /// A region of its own, with a team of its own.
    Parallel = 8,
}

/// In place of a construct's number: none.
pub const CONSTRUCT_NONE: u8 = 255;

pub const BYTES_NODE: usize = 4;
pub const BYTES_EDGE: usize = 2;
/// In edition 1.
pub const BYTES_CONSTRUCT: usize = 4;
/// In edition 2: two bytes more, the filter.
pub const BYTES_CONSTRUCT_2: usize = 6;
pub const BYTES_TRAILER: usize = 16;

/// One of a list of accesses.
pub const BYTES_ACCESS: usize = 4;

/// One entry of a trace: a thread, and the node that it steps to.
pub const BYTES_ENTRY: usize = 2;

/// What `phases` writes for each node.
pub const BYTES_PHASES: usize = 16;

/// What `distances` writes for a barrier, and for a node outside the region.
pub const DISTANCE_AT_BARRIER: u8 = 255;

/// The first field of the trailer.
pub const TRAILER_EDITION: u16 = 1;
/// The same, of charts with filters.
pub const TRAILER_EDITION_2: u16 = 2;

/// The last field of the trailer: the bytes 4F 43, little-endian.
pub const TRAILER_CLOSING: u16 = 0x434F;
