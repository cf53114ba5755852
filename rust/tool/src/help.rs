//! What the command says of itself.

use crate::arguments::Opt;
use crate::commands::{Command, COMMANDS};
use std::fmt::Write;

pub fn version() -> String {
    format!("bohrali {}\n", env!("CARGO_PKG_VERSION"))
}

const ABOUT: &str = "\
Can two threads of one OpenMP team be at two places of a parallel region together, in a run that
finishes?

FILE is a region table (docs/REGION-TABLE.md), a chart or a listing, told by content; - is standard
input. A node is named by its number, or by a source line as file.c:12. DIR is a directory of region
tables, made of a compiled program by 'regions'.";

const STATUS: &str = "\
Results go to standard output, messages to standard error. The status is
    0  where all is well
    1  where a claim fails or a never was lost; with --strict where a lock is needed, accesses race
       or a recorded run does not finish
    2  where something is refused or cannot be read";

const TRUST: &str = "\
What each part can be trusted for:
    answers, verdicts, races, whether a   proved
      trace is a finished run
    runs that show an answer              certified by a proved call before they are shown
    words of why                          what Phases and the construct records say; tested
    region table                          tested; a table is taken exactly when its chart is admitted
    locks over regions and files          put together of proved answers; tested
    charts from source                    tested: expected answers
    recorded runs                         tested on real programs
    this command                          shows library bytes; decides nothing";

/// The help for all.
pub fn overview() -> String {
    let mut text = format!("{ABOUT}\n\nUsage: bohrali COMMAND ..\n\n");
    for command in COMMANDS {
        let usage = format!("{} {}", command.name, command.operands);
        writeln!(text, "    {usage:<28}{}", command.summary).ok();
    }
    text += "    help COMMAND                what COMMAND does, with its options\n";
    format!("{text}\n{STATUS}\n\n{TRUST}\n")
}

/// The help for one command.
pub fn of(command: &Command) -> String {
    let mut text = format!("Usage: bohrali {} {}", command.name, command.operands);
    let summary = command.summary;
    text += &format!("\n\n{}{}.\n", summary[..1].to_uppercase(), &summary[1..]);
    for paragraph in command.details {
        text += &format!("\n{}", wrapped(paragraph, 0));
    }
    text += "\nOptions:\n";
    for Opt { name, value, help } in command.options {
        let usage = value.map_or((*name).into(), |x| format!("{name} {x}"));
        text += &indented(&usage, help);
    }
    text + &indented("--help", "this text")
}

/// An option with its help, which begins on a line of its own where the left side is long.
fn indented(left: &str, right: &str) -> String {
    const INDENT: usize = 20;
    let right = wrapped(right, INDENT);
    match left.len() + 6 < INDENT {
        true => format!("    {left:<16}{}", right.trim_start()),
        false => format!("    {left}\n{right}"),
    }
}

/// A paragraph in lines of at most 96 letters, each behind so many blanks.
fn wrapped(paragraph: &str, indent: usize) -> String {
    const WIDTH: usize = 96;
    let mut lines: Vec<String> = Vec::new();
    for word in paragraph.split_whitespace() {
        match lines.last_mut() {
            Some(line) if indent + line.len() + word.len() < WIDTH => *line += &format!(" {word}"),
            _ => lines.push(word.into()),
        }
    }
    let each = lines.iter().map(|x| format!("{:indent$}{x}\n", ""));
    each.collect()
}
