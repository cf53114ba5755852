//! The documents of `why`, read back: their keys, and runs that the library certifies.

mod common;

use bohrali::{Region, Size};
use common::json::Value;
use common::{chart, example, flow, folder, good, told};
use region::load;
use std::fs;
use std::path::Path;

const TABLE: &str = "playtest.csv";

fn document(words: &[&str]) -> Value {
    Value::read(&good(&[&["why", "--json"], words].concat()))
}

fn numbers(list: &Value) -> Vec<usize> {
    list.items().iter().map(|x| x.number() as usize).collect()
}

/// The bytes of a run's trace.
fn trace(run: &Value) -> Vec<u8> {
    let entries = run.get("trace").items().iter().flat_map(numbers);
    entries.map(|x| x as u8).collect()
}

#[test]
fn keys_are_those_that_are_promised() {
    let expected = [
        "file",
        "region",
        "size",
        "a",
        "b",
        "answer",
        "every_run",
        "words",
        "run",
    ];
    let never = document(&[TABLE, "4", "4"]);
    assert_eq!(never.keys(), expected);
    assert_eq!(never.get("run"), &Value::Null);
    assert_eq!(never.get("every_run"), &Value::Bool(true));
    let zero = document(&[TABLE, "14", "14"]);
    assert_eq!(zero.keys(), expected);
    let run = [
        "threads",
        "trace",
        "met_after",
        "at",
        "keeps_locks",
        "certified",
    ];
    assert_eq!(zero.get("run").keys(), run);
    let figure = chart("figure-2b");
    let figure = figure.to_str().expect("a path that is text");
    let unfinished = document(&[figure, "7", "8"]);
    assert_eq!(unfinished.get("every_run"), &Value::Bool(false));
    // a source line gives a list
    assert_eq!(document(&[TABLE, "playtest.c:79", "14"]).items().len(), 1);
}

/// Each run is certified for its nodes, and has its threads there after so many entries.
fn check(path: &Path, told: &Value) {
    let bytes = fs::read(path).expect("a file");
    let bytes = load::region(&bytes).expect("a region").bytes;
    let run = told.get("run");
    let (trace, at) = (trace(run), numbers(run.get("at")));
    let [a, b] = ["a", "b"].map(|key| told.get(key).number() as usize);
    let region = Region::from(told.get("region").number() as usize);
    let size = Size(run.get("threads").number() as usize);
    assert_eq!(
        bohrali::witnessed(&bytes, region, size, &trace, a, b),
        Ok(true)
    );
    let after = 2 * run.get("met_after").number() as usize;
    for (thread, node) in [(at[0], a), (at[1], b)] {
        let mut entries = trace[..after].chunks(2).rev();
        let last = entries.find(|x| usize::from(x[0]) == thread);
        assert_eq!(last.map(|x| usize::from(x[1])), Some(node));
    }
}

#[test]
fn runs_are_certified_and_at_their_nodes() {
    let path = example().join(TABLE);
    let sheet = Value::read(&good(&["sheet", "--json", TABLE]));
    let mut runs = 0;
    for (a, row) in sheet.get("answers").items().iter().enumerate() {
        for (b, answer) in row.items().iter().enumerate().skip(a % 5).step_by(5) {
            if answer.number() == 0 {
                check(&path, &document(&[TABLE, &a.to_string(), &b.to_string()]));
                runs += 1;
            }
        }
    }
    assert!(runs > 50);
}

/// The directory of tables of a program, in a test's folder.
fn tables(test: &str) -> String {
    let tables = folder(test).join("tables").display().to_string();
    good(&["regions", &flow("h5.c"), "-o", &tables]);
    tables
}

/// Of a program each region that decides has documents of its own, about the table that they name.
#[test]
fn runs_of_a_program_are_certified_for_their_tables() {
    let tables = tables("why-documents");
    for (place, regions) in [("h5.c:68", vec![39]), ("h5.c:69", vec![39, 65])] {
        let (status, out, err) = told(&["why", "--json", &tables, place, place]);
        assert_eq!((status, err.as_str()), (1, ""));
        let list = Value::read(&out);
        let mut files: Vec<&str> = list.items().iter().map(|x| x.get("file").text()).collect();
        files.dedup();
        let expected = regions.iter().map(|x| format!("{tables}/region-{x}.csv"));
        assert_eq!(files, expected.collect::<Vec<_>>());
        for why in list
            .items()
            .iter()
            .filter(|x| x.get("answer").number() == 0)
        {
            check(Path::new(why.get("file").text()), why);
        }
    }
}

#[test]
fn a_program_has_the_verdict_that_ask_gives() {
    let tables = tables("why-verdict");
    let places = [44, 46, 49, 50, 68, 69, 9999].map(|x| format!("h5.c:{x}"));
    let mut statuses = Vec::new();
    for one in &places {
        for other in &places {
            let (asked, verdict, _) = told(&["ask", one, other, &tables]);
            let (status, text, err) = told(&["why", &tables, one, other]);
            assert_eq!((status, err.as_str()), (asked, ""), "{one} {other}");
            let verdict = verdict.split("\n\n").next().expect("a verdict");
            assert!(text.starts_with(verdict), "{text}");
            statuses.push(status);
        }
    }
    assert!([0, 1, 2].iter().all(|x| statuses.contains(x)));
}
