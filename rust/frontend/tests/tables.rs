//! The tables and notes of stored flows, held to what is stored in tests/expected. With STORE=1 in the
//! environment they are stored anew, for a person to read what changed.

mod common;

use common::{flow_files, tests};
use frontend::Program;
use std::env;
use std::fs;
use std::path::{Path, PathBuf};

/// All that `regions` writes for flows, one behind the other.
fn written(flows: &[PathBuf]) -> String {
    let program = Program::read(flows).expect("flows");
    let (regions, notes) = program.regions();
    let mut text = format!("== program.txt\n{}", notes.write());
    for region in regions {
        if let Some(table) = &region.table {
            text += &format!("== {}.csv\n{}", region.name, table.write());
        }
        text += &format!("== {}.txt\n{}", region.name, region.notes.write());
    }
    text
}

#[track_caller]
fn compare(name: &str, flows: &[PathBuf]) {
    let stored = tests().join("expected").join(format!("{name}.txt"));
    let text = written(flows);
    if env::var_os("STORE").is_some() {
        fs::create_dir_all(stored.parent().unwrap_or(Path::new("."))).expect("a directory");
        fs::write(&stored, &text).expect("the file is stored");
    }
    let expected = fs::read_to_string(&stored).unwrap_or_default();
    assert!(text == expected, "{} differs:\n{text}", stored.display());
}

#[test]
fn of_the_programs() {
    for program in common::PROGRAMS {
        compare(program, &flow_files("O2", &[program]));
    }
    compare("units", &flow_files("O2", &common::UNITS));
}

#[test]
fn of_real_sources() {
    for flow in common::real_flows() {
        let name = flow
            .file_stem()
            .expect("a name")
            .to_string_lossy()
            .into_owned();
        compare(&format!("real/{name}"), &[flow]);
    }
}
