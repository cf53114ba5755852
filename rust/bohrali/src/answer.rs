//! The answers, by the numbers of include/bohrali.h.

/// Whether two threads of one team can be at two nodes together, in a run that finishes, or else the
/// first rule by which they never are, in the order 6, 7, 1 to 5. Every never holds in runs that do not finish,
/// too, but for one by "no common end".
#[derive(Clone, Copy, Debug, PartialEq, Eq, Hash)]
#[non_exhaustive]
#[repr(u8)]
pub enum Answer {
    /// They can.
    Concurrent = 0,
    /// Never: no common start, or no common end.
    NoCommonPhase = 1,
    /// Never: both inside masked constructs of the same filter; in edition 1, each inside some master.
    Master = 2,
    /// Never: both inside one single, which does not return.
    Single = 3,
    /// Never: both inside ordereds of one do, which does not return.
    Ordered = 4,
    /// Never: both inside one section, its begin and end counted as inside, whose sections construct
    /// does not return.
    Section = 5,
    /// Never, for a size that is named: the team has one thread.
    OneThread = 6,
    /// Never, for a size that is named: a node is inside a masked construct whose filter is at or over the
    /// size, so that the team lacks its thread.
    MissingThread = 7,
}

impl Answer {
    /// All answers; each stands at its number.
    pub const ALL: [Answer; 8] = [
        Answer::Concurrent,
        Answer::NoCommonPhase,
        Answer::Master,
        Answer::Single,
        Answer::Ordered,
        Answer::Section,
        Answer::OneThread,
        Answer::MissingThread,
    ];

    /// What a sheet has where one of the two nodes is a barrier or outside the region, or both are; every
    /// other byte of it is the number of an answer.
    pub const AT_BARRIER: u8 = 255;
}
