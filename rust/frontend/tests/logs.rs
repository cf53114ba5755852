//! Logs that are cut, mixed from two programs or made up to do harm: a clear error, and never a panic.

mod common;

use charts::random::Random;
use common::tests;
use frontend::traces::Traces;
use frontend::{directory, Directory, Program};
use std::fs;
use std::path::{Path, PathBuf};

fn log(program: &str) -> Vec<u8> {
    let path = tests().join("recorded").join(format!("{program}.log"));
    fs::read(path).expect("a stored log")
}

/// The tables of a program, in a directory of this test's own.
fn tables(test: &str, program: &str) -> Directory {
    let folder = Path::new(env!("CARGO_TARGET_TMPDIR")).join(format!("logs-{test}-{program}"));
    let flow = tests().join("recorded").join(format!("{program}.flow"));
    let (regions, notes) = Program::read(&[flow]).expect("a flow").regions();
    directory::write(&folder, &regions, &notes).expect("tables are written");
    Directory::read(&folder).expect("tables are read")
}

#[track_caller]
fn told(tables: &Directory, log: &[u8]) -> String {
    match Traces::of("a.log", log, tables) {
        Ok(_) => panic!("the log is taken"),
        Err(problems) => problems[0].to_string(),
    }
}

/// A log with an entry changed.
fn changed(log: &[u8], entry: usize, field: usize, bytes: &[u8]) -> Vec<u8> {
    let mut log = log.to_vec();
    let start = 64 + 24 * entry + field;
    log[start..start + bytes.len()].copy_from_slice(bytes);
    log
}

#[test]
fn what_is_no_log() {
    let tables = tables("none", "n1.c");
    let whole = log("n1.c");
    let entries = (whole.len() - 64) / 24;
    let cases: [(Vec<u8>, String); 10] = [
        (Vec::new(), "this is no log of a recorded program: it does not begin with 'bohrali-log'".into()),
        (b"bohrali-log 2\n".to_vec(), "this is a log of version 2, and version 1 is read: link with the recorder of this release".into()),
        (whole[..40].to_vec(), "the log is cut off inside its header".into()),
        (whole[..64 + 24 * 5].to_vec(), format!("the log is cut off: 184 bytes hold 5 entries, and {entries} are said to be there")),
        (whole[..whole.len() - 1].to_vec(), format!("the log is cut off: {} bytes hold {} entries, and {entries} are said to be there", whole.len() - 1, entries - 1)),
        ([&whole[..], &whole[64..]].concat(), format!("{entries} entries are said to be there, and there are {}: are these several logs?", 2 * entries)),
        (changed(&whole, 3, 19, &[7]), "entry 3 is none that the recorder writes".into()),
        (changed(&whole, 3, 8, &[9, 9]), "entry 3: instance 2313 has not begun".into()),
        (changed(&whole, 1, 19, &[3]), "entry 1: instance 0 begins a second time".into()),
        (changed(&whole, 0, 0, &[1]), "instance 0 is of a region that the tables do not have: the log is of another program than they are, or of another build of it".into()),
    ];
    for (log, message) in cases {
        assert_eq!(told(&tables, &log), format!("a.log: {message}"));
    }
}

#[test]
fn of_another_program() {
    let told = told(&tables("other", "n1.c"), &log("s2.c"));
    assert!(told.contains("of another program than they are"), "{told}");
}

#[test]
fn what_a_killed_program_leaves() {
    let tables = tables("killed", "n3.c");
    let whole = log("n3.c");
    // not closed, with a hole inside and zeros at the end
    let mut open = changed(&whole, 200, 19, &[0]);
    open[16..32].fill(0);
    open.extend([0; 24 * 100]);
    let traces = Traces::of("a.log", &open, &tables).expect("traces");
    let notes: Vec<String> = traces.notes.iter().map(ToString::to_string).collect();
    let has = |x: &str| notes.iter().any(|note| note.contains(x));
    assert!(has("the program did not end by itself"), "{notes:?}");
    assert!(has("behind the first hole are not used"), "{notes:?}");
    assert!(has("the log does not have all of it"), "{notes:?}");
    let all = Traces::of("a.log", &whole, &tables).expect("traces");
    let [cut, whole] = [&traces, &all].map(|x| &x.traces[0].entries);
    assert!(cut.len() < whole.len() && whole.starts_with(cut));
}

#[test]
fn random_bytes_are_no_panic() {
    let mut random = Random::new(2_026_111_715);
    let programs = ["n1.c", "n2.c", "s2.c"];
    let all: Vec<(Directory, Vec<u8>)> = programs
        .iter()
        .map(|x| (tables("random", x), log(x)))
        .collect();
    let mut taken = 0;
    for _ in 0..600 {
        let (tables, log) = &all[random.below(all.len())];
        let mut log = log.clone();
        for _ in 0..1 + random.below(4) {
            let place = random.below(log.len());
            log[place] = random.below(256) as u8;
        }
        if random.percent(20) {
            log.truncate(random.below(log.len()));
        }
        taken += usize::from(Traces::of("a.log", &log, tables).is_ok());
    }
    assert!(taken > 20, "{taken} were taken");
}

#[test]
fn tables_and_maps_that_do_not_belong_together() {
    let tables = tables("maps", "n1.c");
    let map: PathBuf = tables.regions[0].table.with_extension("map");
    for (text, message) in [
        (
            "",
            "this is no map, or it is cut off: its last row is not 'end'",
        ),
        (
            "bohrali-map 2\n",
            ", row 1: this is no map: 'bohrali-map 1' is expected",
        ),
        (
            "bohrali-map 1\nregion 1 0\n",
            ", row 2: '1' found, a mark of 16 digits expected",
        ),
        (
            "bohrali-map 1\nregion 0000000000000001 0\nend 0\n",
            "is not of the table beside it; 'bohrali regions' writes both anew",
        ),
        (
            "bohrali-map 1\nregion 0000000000000001 0\nnode 1:2\nend 1\n",
            ", row 3: '1:2' found, MARK:NODE:DEPTH expected",
        ),
    ] {
        fs::write(&map, text).expect("the map is written");
        let told = told(&tables, &log("n1.c"));
        assert!(told.contains(message), "{told}");
    }
}
