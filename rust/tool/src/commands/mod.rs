//! The commands, a module each.

mod ask;
mod check;
mod convert;
mod decide;
mod diff;
mod distances;
mod judge;
mod locks;
mod page;
mod pair;
mod phases;
pub mod program_locks;
mod program_why;
mod races;
mod regions;
pub mod replay;
mod replay_all;
mod sheet;
mod tidy;
mod trace;
mod why;

use crate::arguments::{Arguments, Opt};
use crate::nearest::nearest;
use crate::report::{Failure, Report, Terminal};

/// A command: how it is called, what its help says, and what it does.
pub struct Command {
    pub name: &'static str,
    /// What stands behind the name.
    pub operands: &'static str,
    /// The fewest and the most operands.
    pub count: (usize, usize),
    pub summary: &'static str,
    pub details: &'static [&'static str],
    pub options: &'static [Opt],
    pub run: fn(&Arguments, &Terminal) -> Result<Report, Failure>,
}

/// All commands, in the order in which one needs them.
pub const COMMANDS: [&Command; 17] = [
    &check::COMMAND,
    &sheet::COMMAND,
    &pair::COMMAND,
    &why::COMMAND,
    &judge::COMMAND,
    &locks::COMMAND,
    &races::COMMAND,
    &diff::COMMAND,
    &page::COMMAND,
    &phases::COMMAND,
    &distances::COMMAND,
    &replay::COMMAND,
    &convert::COMMAND,
    &tidy::COMMAND,
    &regions::COMMAND,
    &ask::COMMAND,
    &trace::COMMAND,
];

/// The command of this name.
pub fn named(name: &str) -> Result<&'static Command, Failure> {
    if let Some(command) = COMMANDS.into_iter().find(|x| x.name == name) {
        return Ok(command);
    }
    let known = COMMANDS.iter().map(|x| x.name).chain(["help"]);
    let hint = match nearest(name, known) {
        Some(meant) => format!("did you mean '{meant}'?"),
        None => "'bohrali --help' lists the commands".into(),
    };
    Err(Failure::words(format!("no command '{name}'; {hint}")))
}
