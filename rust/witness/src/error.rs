//! Why there is no witness: what the library refuses, or a fault that is said and never hidden.

use bohrali::Refusal;
use std::error;
use std::fmt;

#[derive(Clone, Debug, PartialEq, Eq)]
pub enum Error {
    /// What the library refuses: the chart, the region, a node or the size.
    Refused(Refusal),
    /// A fault: a chart that the library admits and this crate cannot read.
    Unread,
    /// A fault: no run was found for a pair that may be met.
    NoRun,
    /// A fault: a run was found, and the proved library does not certify it.
    NotCertified,
}

impl From<Refusal> for Error {
    fn from(refusal: Refusal) -> Error {
        Error::Refused(refusal)
    }
}

impl fmt::Display for Error {
    fn fmt(&self, f: &mut fmt::Formatter<'_>) -> fmt::Result {
        match self {
            Error::Refused(refusal) => refusal.fmt(f),
            Error::Unread => {
                f.write_str("fault: the chart is admitted, and its records cannot be read")
            }
            Error::NoRun => {
                f.write_str("fault: the answer is that they may be met, and no run was found")
            }
            Error::NotCertified => {
                f.write_str("fault: a run was found that is not certified; it is not shown")
            }
        }
    }
}

impl error::Error for Error {}
