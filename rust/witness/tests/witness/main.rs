//! Runs and words against the archive, the second implementation and the exploration of team states.

mod certificate;
mod generated;
mod known;
mod runs;
mod shortest;
mod texts;
mod times;
