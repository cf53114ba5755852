//! What a build sees: many regions, each another one, asked by the library, by the best Rust known, and read alone, which
//! is the least that any answer takes.

use crate::calls::{Calls, LIBRARY, WITHOUT_LEVELS, WITH_LEVELS};
use crate::subject::{Call, Subject};
use crate::timing::{lower, ROUNDS};
use charts::benchmark::source;
use frontend::Program;
use std::collections::BTreeSet;
use std::fs;
use std::path::{Path, PathBuf};

const REGIONS: usize = 1_000;

/// What a build asks.
const CALLS: [Call; 4] = [Call::Admit, Call::Judge, Call::Locks, Call::Sheet];

/// The flows that the front end is tested with, of whole programs and of real sources.
const FLOWS: &str = concat!(env!("CARGO_MANIFEST_DIR"), "/../frontend/tests/flows");

/// Measures the calls on the regions and prints a table.
pub fn print() {
    let stored = stored();
    let subject = Subject::regions(filled(&stored));
    let by: [&Calls; 3] = [&LIBRARY, &WITH_LEVELS, &WITHOUT_LEVELS];
    let mut times = [[f64::INFINITY; 3]; CALLS.len()];
    let mut floor = [f64::INFINITY];
    for _ in 0..ROUNDS {
        for (call, times) in CALLS.into_iter().zip(&mut times) {
            lower(times, subject.times(call, by));
        }
        lower(&mut floor, subject.reading());
    }
    println!();
    println!(
        "{REGIONS} regions, {} of stored flows; reading their bytes alone takes {:.0} ns a region",
        stored.len(),
        floor[0]
    );
    println!("| Call      | All, ms | A region, us | of Rust with levels | of Rust without | of reading alone |");
    println!("|---|---|---|---|---|---|");
    for (call, [library, with, without]) in CALLS.into_iter().zip(times) {
        println!(
            "| {:<9} | {:7.2} | {:12.2} | {:19.2} | {:15.2} | {:16.0} |",
            subject.name_of(call),
            library * REGIONS as f64 / 1e6,
            library / 1e3,
            library / with,
            library / without,
            library / floor[0]
        );
    }
}

/// The different charts of the stored flows, each flow a program.
fn stored() -> BTreeSet<Vec<u8>> {
    let mut flows = Vec::new();
    find(Path::new(FLOWS), &mut flows);
    let mut charts = BTreeSet::new();
    for flow in &flows {
        let program = Program::read(&[flow]).expect("a stored flow");
        let (regions, _) = program.regions();
        let tables = regions.into_iter().filter_map(|region| region.table);
        charts.extend(tables.map(|table| table.chart.encode()));
    }
    charts
}

/// All flows below a directory.
fn find(directory: &Path, flows: &mut Vec<PathBuf>) {
    let entries = fs::read_dir(directory).expect("the stored flows");
    for path in entries.filter_map(|entry| Some(entry.ok()?.path())) {
        if path.is_dir() {
            find(&path, flows);
        } else if path.extension().is_some_and(|ending| ending == "flow") {
            flows.push(path);
        }
    }
}

/// These charts, and others of code of their sizes.
fn filled(stored: &BTreeSet<Vec<u8>>) -> Vec<Vec<u8>> {
    let admitted = |chart: &Vec<u8>| bohrali::admit(chart).expect("a chart of the front end");
    let sizes: Vec<usize> = stored.iter().map(|x| admitted(x).nodes).collect();
    let mut charts: Vec<Vec<u8>> = stored.iter().cloned().collect();
    charts.extend(source(&sizes, REGIONS - stored.len()));
    charts
}
