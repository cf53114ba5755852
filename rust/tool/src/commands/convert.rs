//! `bohrali convert`: a region in another form.

use super::Command;
use crate::arguments::{Arguments, OUTPUT};
use crate::report::{Failure, Report, Terminal};
use crate::subject::Subject;
use std::ffi::OsStr;
use std::fs;
use std::path::Path;

pub const COMMAND: Command = Command {
    name: "convert",
    operands: "FILE [-o OUT]",
    count: (1, 1),
    summary: "a table, chart or listing as a table or a chart",
    details: &[
        "The ending of OUT says what is written: .csv a region table, .chart a chart of edition 2. Without -o a
table goes to standard output. A chart has no room for 'where', for names that are words and for notes; a
listing can be read and not written.",
    ],
    options: &[OUTPUT],
    run,
};

fn run(arguments: &Arguments, _: &Terminal) -> Result<Report, Failure> {
    let subject = Subject::read(&arguments.operands[0])?;
    let Some(out) = arguments.value(&OUTPUT) else {
        return Ok(Report::of(subject.table().write()));
    };
    let ending = Path::new(out).extension().and_then(OsStr::to_str);
    let bytes = match ending {
        Some("csv") => subject.table().write().into_bytes(),
        Some("chart") => subject.table().chart.encode(),
        _ => {
            let message = "the ending .csv, of a region table, or .chart is expected";
            return Err(Failure::about(&out.to_string_lossy(), message));
        }
    };
    written(out, &bytes)
}

/// Writes a file whole, and says nothing where that went well.
pub fn written(out: &OsStr, bytes: &[u8]) -> Result<Report, Failure> {
    match fs::write(Path::new(out), bytes) {
        Ok(()) => Ok(Report::of("")),
        Err(error) => {
            let message = format!("the file cannot be written: {error}");
            Err(Failure::about(&out.to_string_lossy(), message))
        }
    }
}
