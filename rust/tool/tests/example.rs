//! The example: its table is that of its source, and its build stops when a claim no longer holds.

mod common;

use common::{example, folder, good};
use region::{Lines, NodeKind, Table};
use std::fs;
use std::path::Path;
use std::process::{Command, Output};

fn table() -> Table {
    let text = fs::read(example().join("playtest.csv")).expect("the table");
    Table::read(&text).expect("a table that is taken")
}

#[test]
fn rows_name_the_lines_on_which_their_constructs_are() {
    let source = fs::read_to_string(example().join("playtest.c")).expect("the source");
    let lines: Vec<&str> = source.lines().collect();
    let table = table();
    for (node, record) in (0u8..).zip(&table.chart.nodes) {
        let place = Lines::in_cell(table.place(node))
            .next()
            .expect("a source line");
        let line = lines[place.first as usize - 1];
        if record.kind == NodeKind::Begin {
            let kind = table
                .kind(node)
                .replace("do", "for")
                .replace("masked 2", "masked filter(2)");
            let pragma = match kind.split_once(' ') {
                Some(("critical", name)) => format!("#pragma omp critical({name})"),
                _ => format!("#pragma omp {kind}"),
            };
            assert!(line.trim().starts_with(&pragma), "{node}: {line}");
        }
        if record.kind == NodeKind::Plain {
            assert!(
                !line.contains("#pragma") && line.contains([';', '(']),
                "{node}: {line}"
            );
        }
    }
    let pragmas = lines.iter().filter(|x| x.contains("#pragma omp")).count();
    let begins = table.chart.constructs.len();
    // The region's own line, and the barrier that is written.
    assert_eq!(pragmas, begins + 2);
}

fn make(folder: &Path, target: &str) -> Output {
    let built = folder.join("build");
    Command::new("make")
        .args(["-C", folder.to_str().expect("a path that is text"), target])
        .arg(format!("BOHRALI={}", env!("CARGO_BIN_EXE_bohrali")))
        .arg(format!("BUILD={}", built.display()))
        .output()
        .expect("make")
}

#[test]
fn the_build_stops_when_a_claim_no_longer_holds() {
    let folder = folder("example");
    for name in ["Makefile", "playtest.c", "playtest.csv", "playtest.claims"] {
        fs::copy(example().join(name), folder.join(name)).expect("a copy");
    }
    let made = make(&folder, "demo");
    let text = String::from_utf8_lossy(&made.stdout).into_owned();
    assert!(made.status.success(), "{text}");
    assert!(
        text.contains("all 7 claims hold") && text.contains("saved 20 times"),
        "{text}"
    );
    let rows = fs::read_to_string(folder.join("playtest.csv")).expect("the table");
    let looped = rows.replace("9,end,0,,10,", "9,end,0,,2 10,");
    assert_ne!(rows, looped);
    fs::write(folder.join("playtest.csv"), looped).expect("the table");
    fs::remove_dir_all(folder.join("build")).expect("nothing is built");
    let made = make(&folder, "all");
    let text = String::from_utf8_lossy(&made.stdout).into_owned();
    assert!(!made.status.success(), "{text}");
    assert!(
        text.contains("'never playtest.c:68 playtest.c:68' does not hold"),
        "{text}"
    );
    assert!(!folder.join("build/playtest").exists());
}

/// The locks that the build leaves out are just those that can go.
#[test]
fn the_locks_that_are_left_out_can_go() {
    let source = fs::read_to_string(example().join("playtest.c")).expect("the source");
    let lines: Vec<&str> = source.lines().collect();
    let text = good(&["locks", "playtest.csv"]);
    for (place, line) in lines.iter().enumerate() {
        if let Some(name) = line.trim().strip_prefix("#pragma omp critical(") {
            let is_left_out = lines[place - 1].contains("#ifndef DROP_LOCKS");
            let name = name.trim_end_matches(')');
            let row = format!("critical {name} at playtest.c:{} ", place + 1);
            let verdict = text.lines().find(|x| x.contains(&row)).expect("a verdict");
            assert_eq!(
                verdict.trim_start().starts_with("can go"),
                is_left_out,
                "{verdict}"
            );
        }
    }
}
