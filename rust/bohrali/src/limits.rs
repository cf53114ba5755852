//! The limits of a chart, of a listing's depth, of a list of accesses, of a team's size where one is named, and
//! of the team of a trace: a count outside them is refused.
//! Constructs may be none. Barriers are counted in each region by itself, and are never fewer than two, its
//! Start and its Finish.

pub const LEAST_NODES: usize = 2;
pub const MOST_NODES: usize = 192;
pub const LEAST_EDGES: usize = 1;
pub const MOST_EDGES: usize = 1024;
pub const MOST_CONSTRUCTS: usize = 48;
pub const MOST_BARRIERS: usize = 64;
pub const MOST_DEPTH: usize = 16;
pub const LEAST_SIZE: usize = 1;
pub const MOST_SIZE: usize = 1024;
pub const MOST_THREADS: usize = 8;
pub const MOST_ACCESSES: usize = 1024;

/// The most bytes that `races` writes.
pub const MOST_RACES: usize = 524_800;

/// The length of the longest chart, which is one of edition 2.
pub const MOST_CHART_BYTES: usize = 3120;
