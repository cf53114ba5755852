//! `bohrali tidy`: the rows of a table numbered again.

use super::convert::written;
use super::Command;
use crate::arguments::{Arguments, OUTPUT};
use crate::report::{Failure, Report, Terminal};
use crate::subject;
use region::load::{self, Form, MOST_BYTES};

pub const COMMAND: Command = Command {
    name: "tidy",
    operands: "FILE [-o OUT]",
    count: (1, 1),
    summary: "a region table with its rows numbered again",
    details: &[
        "For rows that were put in or taken out. Leave 'node' of a new row empty and write 'below' in 'next'
for the row underneath; every 'next' is changed to match. Without -o the table goes to standard output;
OUT may be FILE.",
    ],
    options: &[OUTPUT],
    run,
};

fn run(arguments: &Arguments, _: &Terminal) -> Result<Report, Failure> {
    let file = &arguments.operands[0];
    let bytes = subject::bytes(file, MOST_BYTES)?;
    if load::form(&bytes) != Form::Table {
        let message = "this is no region table, which is expected";
        return Err(Failure::about(&file.to_string_lossy(), message));
    }
    let text = region::tidy(&bytes).map_err(|x| Failure::about(&file.to_string_lossy(), x))?;
    match arguments.value(&OUTPUT) {
        Some(out) => written(out, text.as_bytes()),
        None => Ok(Report::of(text)),
    }
}
