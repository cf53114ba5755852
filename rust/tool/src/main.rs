//! The command `bohrali`: what the proved library answers about a region, for a person and for a build. It
//! shows the library's bytes and decides nothing.

mod arguments;
mod changes;
mod commands;
mod critical;
mod evidence;
mod help;
mod json;
mod lines;
mod matching;
mod nearest;
mod page;
mod places;
mod program;
mod report;
mod subject;
mod tables;
mod trace;
mod words;

use report::{Failure, Report, Terminal};
use std::env;
use std::process::ExitCode;

fn main() -> ExitCode {
    let words: Vec<_> = env::args_os().skip(1).collect();
    let terminal = Terminal::find();
    match run(&words, &terminal) {
        Ok(report) => report.print(),
        Err(failure) => failure.print(&terminal),
    }
}

fn run(words: &[std::ffi::OsString], terminal: &Terminal) -> Result<Report, Failure> {
    let Some((first, rest)) = words.split_first() else {
        return Err(Failure::usage(help::overview()));
    };
    let name = first.to_string_lossy();
    match (name.as_ref(), rest) {
        ("--help" | "-h", _) | ("help", []) => Ok(Report::of(help::overview())),
        ("help", [name, ..]) if name == "help" => Ok(Report::of(help::overview())),
        ("--version" | "-V", _) => Ok(Report::of(help::version())),
        ("help", [name, ..]) => {
            let command = commands::named(&name.to_string_lossy())?;
            Ok(Report::of(help::of(command)))
        }
        (name, rest) => {
            let command = commands::named(name)?;
            match arguments::parse(command, rest)? {
                Some(arguments) => (command.run)(&arguments, terminal),
                None => Ok(Report::of(help::of(command))),
            }
        }
    }
}
