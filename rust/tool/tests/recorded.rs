//! Logs of recorded programs, stored with the flows of their builds: made into traces and replayed by the proved
//! program, with the charts as they are and with faults put into them.

mod common;

use common::{folder, good, told};
use std::fs;
use std::path::{Path, PathBuf};

const PROGRAMS: [&str; 8] = [
    "m1.c",
    "n1.c",
    "n2.c",
    "n3.c",
    "playtest.c",
    "s2.c",
    "s3.cc",
    "s4.f90",
];

fn stored(name: &str) -> String {
    let folder = Path::new(env!("CARGO_MANIFEST_DIR")).join("../frontend/tests/recorded");
    folder.join(name).display().to_string()
}

/// The directory of traces of a program.
fn traced(test: &str, program: &str) -> PathBuf {
    let folder = folder(&format!("recorded-{test}-{program}"));
    let [tables, traces] = ["tables", "traces"].map(|x| folder.join(x));
    let [tables_name, traces_name] = [&tables, &traces].map(|x| x.display().to_string());
    let [flow, log] = ["flow", "log"].map(|x| stored(&format!("{program}.{x}")));
    good(&["regions", &flow, "-o", &tables_name]);
    good(&["trace", &log, &tables_name, "-o", &traces_name]);
    traces
}

#[test]
fn are_runs_by_the_rules() {
    for program in PROGRAMS.into_iter().filter(|x| *x != "m1.c") {
        let traces = traced("rules", program).display().to_string();
        let (status, out, err) = told(&["replay", &traces, "--strict"]);
        assert_eq!((status, err.as_str()), (0, ""), "{program}: {out}");
        assert!(out.contains("of which none is answered never"), "{out}");
        assert!(
            out.contains("0 unfinished, 0 forbidden; 0 are cut"),
            "{out}"
        );
    }
}

#[test]
fn the_breach_of_openmp_is_found() {
    let traces = traced("breach", "m1.c").display().to_string();
    let (status, out, _) = told(&["replay", &traces, "--strict"]);
    assert_eq!(status, 1, "{out}");
    for part in [
        ": forbidden: 10 entries, a team of 2 threads",
        "stress/m1.c:14",
        "a barrier opens once all threads are at it, and thread ",
        ": 0 finished, 0 unfinished, 1 forbidden",
    ] {
        assert!(out.contains(part), "'{part}' is not in\n{out}");
    }
    let documents = told(&["replay", &traces, "--json"]).1;
    assert!(
        documents.contains("\"rule\":\"a barrier opens"),
        "{documents}"
    );
}

/// What is changed in the tables of a program, whose runs then are none.
const FAULTS: [(&str, &str, &str); 5] = [
    ("n3.c", ",single,", ",master,"),
    ("n3.c", ",critical t,", ",single,"),
    ("n3.c", ",masked 2,", ",masked 1,"),
    ("n3.c", ",do,", ",single,"),
    ("n3.c", "\n13,plain,", "\n13,barrier,"),
];

#[test]
fn faults_in_charts_are_found() {
    for (program, old, new) in FAULTS {
        let traces = traced("faults", program);
        let name = traces.display().to_string();
        let mut changed = 0;
        for entry in fs::read_dir(&traces).expect("the directory") {
            let path = entry.expect("an entry").path();
            let text = fs::read_to_string(&path).expect("a text");
            if path.extension().is_some_and(|x| x == "csv") && text.contains(old) {
                fs::write(&path, text.replacen(old, new, 1)).expect("it is written");
                changed += 1;
            }
        }
        let (_, out, err) = told(&["replay", &name]);
        let is_found = out.contains(": forbidden: ") || out.contains(": unfinished: ");
        assert!(changed > 0 && is_found, "{program}{old}: {out}{err}");
    }
}

#[test]
fn the_page_shows_one() {
    let traces = traced("page", "n1.c");
    let index = fs::read_to_string(traces.join("traces.txt")).expect("the index");
    let first = index.lines().find_map(|x| x.strip_prefix("trace: "));
    let (trace, table) = first.and_then(|x| x.split_once(", ")).expect("a trace");
    let path = |x: String| traces.join(x).display().to_string();
    let (table, trace) = (path(format!("{table}.csv")), path(format!("{trace}.trace")));
    let page = path("page.html".into());
    good(&["page", &table, "--trace", &trace, "-o", &page]);
    let text = fs::read_to_string(page).expect("the page");
    assert!(text.contains("\"recorded\""), "the run is in the page");
}
