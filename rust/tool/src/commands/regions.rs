//! `bohrali regions`: region tables out of compiled source.

use super::Command;
use crate::arguments::{Arguments, Opt};
use crate::report::{Failure, Report, Terminal};
use crate::tables;
use crate::words::count;
use frontend::{directory, Key, Notes, Program, RegionChart};
use std::path::Path;

const OUTPUT: Opt = Opt {
    name: "-o",
    value: Some("DIR"),
    help: "write to the directory DIR, in place of what was written there before",
};

pub const COMMAND: Command = Command {
    name: "regions",
    operands: "FLOW.. -o DIR",
    count: (1, usize::MAX),
    summary: "region tables out of compiled source",
    details: &[
        "FLOW is what the compiler wrote beside an object, as a.flow beside a.o, where the program is built with
bohrali-gcc, bohrali-g++ and bohrali-gfortran; hand over those of all units. DIR gets for each parallel
region a table FUNCTION-LINE.csv, and FUNCTION-LINE.txt with what must be known beside it: lines without
an answer and why, branches that all threads have to take alike, routines that are not opened, what was
taken for less than it is and what was lost to the limits of a chart. program.txt has the same for the
program as a whole.",
        "'ask', 'why', 'judge' and 'locks' take DIR; every command takes a table of it.",
    ],
    options: &[OUTPUT],
    run,
};

fn run(arguments: &Arguments, _: &Terminal) -> Result<Report, Failure> {
    let Some(out) = arguments.value(&OUTPUT) else {
        let message = "regions: -o DIR is missing, the directory that the tables go to";
        return Err(Failure::words(message));
    };
    let program = Program::read(&arguments.operands).map_err(tables::failure)?;
    let (regions, notes) = program.regions();
    directory::write(Path::new(out), &regions, &notes).map_err(|x| tables::failure(vec![x]))?;
    directory::write_units(Path::new(out), &program.units())
        .map_err(|x| tables::failure(vec![x]))?;
    let text = format!("{}: {}\n", out.to_string_lossy(), counts(&regions));
    Ok(Report::of(text).with_notes(warnings(&regions, &notes)))
}

fn counts(regions: &[RegionChart]) -> String {
    let tables = regions.iter().filter(|x| x.table.is_some()).count();
    match regions.len() - tables {
        0 => count(tables, "region table"),
        without => format!(
            "{} and {} without a chart",
            count(tables, "region table"),
            count(without, "region")
        ),
    }
}

/// What was not made out.
fn warnings(regions: &[RegionChart], notes: &Notes) -> Vec<String> {
    let mut warnings = Vec::new();
    for region in regions {
        for note in region.notes.of(Key::NoChart) {
            warnings.push(format!("{}: {note}", region.name));
        }
    }
    warnings.extend(notes.of(Key::NotRead).map(ToString::to_string));
    warnings
}
