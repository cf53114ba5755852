//! `bohrali trace`: traces out of a recorder's log.

use super::Command;
use crate::arguments::{Arguments, Opt};
use crate::report::{Failure, Report, Terminal};
use crate::tables;
use crate::words::count;
use frontend::traces::Traces;
use frontend::Key;
use std::collections::BTreeSet;
use std::path::Path;

const OUTPUT: Opt = Opt {
    name: "-o",
    value: Some("OUT"),
    help: "write to the directory OUT, in place of what was written there before",
};

pub const COMMAND: Command = Command {
    name: "trace",
    operands: "LOG DIR -o OUT",
    count: (2, 2),
    summary: "traces out of the log of a recorded program",
    details: &[
        "LOG is what a program built with 'bohrali-gcc --record' wrote where BOHRALI_LOG said; DIR has the region
tables of that very build, as 'regions' writes them. OUT gets for each recorded instance of a region a
trace REGION-NUMBER.trace, and the table of each region; traces.txt lists them.",
        "What a thread came through without a record, as the end of a loop in which it had no turn, is filled in from
the chart, marked in the trace and counted. Teams over 8 threads are left out, and a trace is cut at 32767
entries; both are said.",
        "'bohrali replay OUT' replays all of them, 'bohrali replay OUT/REGION.csv OUT/REGION-1.trace' one, and
'bohrali page OUT/REGION.csv --trace OUT/REGION-1.trace' shows one.",
    ],
    options: &[OUTPUT],
    run,
};

fn run(arguments: &Arguments, _: &Terminal) -> Result<Report, Failure> {
    let Some(out) = arguments.value(&OUTPUT) else {
        let message = "trace: -o OUT is missing, the directory that the traces go to";
        return Err(Failure::words(message));
    };
    let [log, tables] = [0, 1].map(|x| Path::new(&arguments.operands[x]));
    let directory = tables::read(tables)?;
    let traces = Traces::read(log, &directory).map_err(tables::failure)?;
    let written = traces.write(Path::new(out), &directory);
    written.map_err(|x| tables::failure(vec![x]))?;
    let text = format!("{}: {}\n", out.to_string_lossy(), counts(&traces));
    let told = [Key::LeftOut, Key::Log].map(|x| traces.notes.of(x));
    let notes = told.into_iter().flatten().map(ToString::to_string);
    Ok(Report::of(text).with_notes(notes.collect()))
}

fn counts(traces: &Traces) -> String {
    let all = &traces.traces;
    let entries = all.iter().flat_map(|x| &x.entries);
    let filled = entries.clone().filter(|x| x.filled.is_some()).count();
    let regions: BTreeSet<&str> = traces
        .notes
        .of(Key::Trace)
        .map(|x| x.reason.as_str())
        .collect();
    let cut = all.iter().filter(|x| x.cut.is_some()).count();
    let mut text = format!(
        "{} of {}, {}, {filled} of them filled in",
        count(all.len(), "trace"),
        count(regions.len(), "region"),
        count(entries.count(), "entry")
    );
    if cut > 0 {
        text += &format!("; {cut} of the traces are cut");
    }
    text
}
