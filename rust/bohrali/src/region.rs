//! The region that a call is about.

/// A region of a chart, each with a team of its own. A `Parallel` whose number names no parallel
/// construct of the chart is refused.
#[derive(Clone, Copy, Debug, Default, PartialEq, Eq, Hash)]
pub enum Region {
    /// The region that the whole chart is.
    #[default]
    Outermost,
    /// The one inside a parallel construct, by its number.
    Parallel(usize),
}

impl Region {
    /// C's number for the outermost region, which no construct has.
    pub const OUTERMOST: usize = 255;

    /// The number that C gets.
    pub fn number(self) -> usize {
        match self {
            Region::Outermost => Region::OUTERMOST,
            Region::Parallel(number) => number,
        }
    }
}

impl From<usize> for Region {
    /// The region of C's number.
    fn from(number: usize) -> Region {
        match number {
            Region::OUTERMOST => Region::Outermost,
            _ => Region::Parallel(number),
        }
    }
}
