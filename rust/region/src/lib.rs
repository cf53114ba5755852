//! The region table of docs/REGION-TABLE.md, to a chart and back; and a region out of a file of any form.
//! Whether a chart is one is the proved library's to say: what is here says where a text goes wrong, and
//! takes a table exactly when its chart is admitted.

pub mod chart;
mod constructs;
mod csv;
mod edges;
mod heading;
mod kind;
pub mod load;
mod names;
mod nesting;
mod places;
mod problem;
mod rows;
mod table;
mod tidy;
mod write;

pub use chart::{Chart, Construct, ConstructKind, Node, NodeKind};
pub use kind::{construct_text, word};
pub use load::{Form, Loaded};
pub use names::{Name, Names};
pub use places::{Lines, Place};
pub use problem::{quoted, Problem, Wrong};
pub use table::Table;
pub use tidy::tidy;
