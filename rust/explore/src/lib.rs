//! Explicit-state exploration of the team rules on small charts, to compare what teams can do with
//! what the pair rules answer: answer 0 exactly when a finished run meets the pair, for the team of each
//! region over the chart so read; and with what is said of locks.

pub mod compare;
pub mod dropped;
pub mod fault;
pub mod locks;
pub mod masked;
pub mod regions;
pub mod replay;
pub mod search;
mod sections;
pub mod shortest;
mod sizes;
pub mod team;
pub mod trace;
