//! Charts of real code. frontend/gcc writes the control flow of what it compiles; here the flows of a
//! program become region tables, one a region, and what a person must know beside each.
//!
//! Charts are flat: the code of regions deeper inside is plain code, whose skips and turns are edges.
//! Every step here adds ways that a run may take, or takes away what is no never; code from which the
//! region's end is not reached gets no node and no answer. What is not known is refused by name.

mod alike;
mod ask;
mod body;
mod carried;
mod charting;
mod constructs;
pub mod directory;
mod flow;
mod graph;
mod hash;
mod inlining;
mod joining;
mod log;
mod map;
mod notes;
mod problem;
mod program;
mod reader;
mod records;
mod regions;
mod set;
mod shaping;
mod statement;
#[cfg(test)]
mod testing;
pub mod traces;
mod units;
mod walk;

pub use ask::{ask, Asked, Finding, Verdict};
pub use directory::{Directory, Held};
pub use hash::hash;
pub use notes::{Key, Note, Notes};
pub use problem::Problem;
pub use program::Program;
pub use regions::RegionChart;
pub use units::{CriticalAt, UnitFlow, Units};
