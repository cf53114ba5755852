//! The JSON documents, read back and held to what the library writes.

mod common;

use bohrali::{Region, Size};
use common::json::Value;
use common::{chart, example, file, folder, good, told};
use region::{load, Chart};
use std::fs;

const TABLE: &str = "playtest.csv";

fn document(words: &[&str]) -> Value {
    Value::read(&good(words))
}

#[test]
fn keys_are_those_that_are_promised() {
    let folder = folder("documents-keys");
    let claims = file(&folder, "fails.claims", "never 14 14\n");
    let wrong = file(&folder, "wrong.csv", "node,kind\n");
    assert_eq!(
        document(&["check", "--json", TABLE]).keys(),
        ["file", "admitted", "nodes", "barriers", "phases"]
    );
    let refused = Value::read(&told(&["check", "--json", &wrong]).1);
    assert_eq!(refused.keys(), ["file", "admitted", "refused", "errors"]);
    assert_eq!(
        refused.get("errors").items()[0].keys(),
        ["row", "column", "message"]
    );
    assert_eq!(
        document(&["sheet", "--json", TABLE]).keys(),
        ["file", "region", "size", "nodes", "answers"]
    );
    assert_eq!(
        document(&["pair", "--json", TABLE, "1", "2"]).keys(),
        ["file", "region", "size", "a", "b", "answer"]
    );
    assert_eq!(
        document(&["judge", "--json", TABLE, "playtest.claims"]).keys(),
        ["file", "holds"]
    );
    let failed = Value::read(&told(&["judge", "--json", TABLE, &claims]).1);
    assert_eq!(failed.keys(), ["file", "holds", "line", "claim", "a", "b"]);
}

#[test]
fn keys_of_locks_and_changes() {
    let folder = folder("documents-more-keys");
    let other = fs::read_to_string(example().join(TABLE)).expect("the table");
    let other = other.replace("16,ordered,5", "16,critical log,5");
    let other = file(&folder, "other.csv", other);
    let locks = document(&["locks", "--json", TABLE]);
    assert_eq!(locks.keys(), ["criticals"]);
    assert_eq!(
        locks.get("criticals").items()[0].keys(),
        [
            "file",
            "construct",
            "name",
            "begin",
            "end",
            "where",
            "lock",
            "pair",
            "region"
        ]
    );
    let diff = Value::read(&told(&["diff", "--json", TABLE, &other]).1);
    assert_eq!(diff.keys(), ["lost", "gained"]);
    let lost = &diff.get("lost").items()[0];
    assert_eq!(lost.keys(), ["region", "a", "b", "before", "after"]);
}

#[test]
fn sheets_are_the_librarys_bytes() {
    let mut files = vec![example().join(TABLE)];
    files.extend(["figure-2b", "x", "y", "z"].map(chart));
    for file in files {
        let path = file.to_str().expect("a path that is text");
        let bytes = load::region(&fs::read(&file).expect("a file"))
            .expect("a region")
            .bytes;
        let regions: Vec<Region> = Chart::decode(&bytes).expect("a chart").regions().collect();
        for region in regions {
            for size in [None, Some(1), Some(2), Some(1024)] {
                let mut words = vec!["sheet".to_string(), "--json".into(), path.into()];
                words.extend(["--region".into(), region.number().to_string()]);
                words.extend(size.iter().flat_map(|x| ["--size".into(), x.to_string()]));
                let told = Value::read(&good(&words));
                let mut out = vec![0; 192 * 192];
                let written = match size {
                    None => bohrali::sheet(&bytes, region, &mut out),
                    Some(size) => bohrali::sheet_sized(&bytes, region, Size(size), &mut out),
                };
                out.truncate(written.expect("an admitted chart"));
                let rows = told.get("answers").items().iter().flat_map(Value::items);
                let answers: Vec<u8> = rows.map(|x| x.number() as u8).collect();
                assert_eq!(answers, out, "{path}");
                assert_eq!(told.get("region").number(), region.number() as u64);
            }
        }
    }
}

#[test]
fn every_pair_is_the_sheets() {
    let sheet = document(&["sheet", "--json", TABLE]);
    for (a, row) in sheet.get("answers").items().iter().enumerate() {
        for (b, answer) in row.items().iter().enumerate().step_by(7) {
            let (one, other) = (a.to_string(), b.to_string());
            let (status, out, _) = told(&["pair", "--json", TABLE, &one, &other]);
            match answer.number() {
                255 => assert_eq!(status, 2),
                number => assert_eq!(Value::read(&out).get("answer").number(), number),
            }
        }
    }
}

#[test]
fn phases_and_distances_are_the_librarys() {
    let bytes = load::region(&fs::read(example().join(TABLE)).expect("a file"))
        .expect("a region")
        .bytes;
    let mut out = vec![0; 192 * 16];
    let written = bohrali::phases(&bytes, Region::Parallel(9), &mut out).expect("a region");
    let bits = |mask: &[u8]| mask.iter().map(|x| x.count_ones() as usize).sum::<usize>();
    let phases = document(&["phases", "--json", TABLE, "--region", "9"]);
    let mut rows = phases.get("phases").items().iter();
    for (node, masks) in out[..written].chunks(16).enumerate() {
        if masks.iter().all(|&x| x == 0) {
            continue;
        }
        let row = rows.next().expect("a row for each node that has phases");
        assert_eq!(row.get("node").number(), node as u64);
        assert_eq!(row.get("starts").items().len(), bits(&masks[..8]));
        assert_eq!(row.get("ends").items().len(), bits(&masks[8..]));
    }
    let mut out = vec![0; 192];
    let written = bohrali::distances(&bytes, Region::Outermost, &mut out).expect("a region");
    let distances = document(&["distances", "--json", TABLE]);
    let told = distances
        .get("distances")
        .items()
        .iter()
        .map(|x| x.number() as u8);
    assert_eq!(told.collect::<Vec<_>>(), &out[..written]);
}

#[test]
fn text_of_any_sort_is_escaped() {
    let folder = folder("documents-escapes");
    let name = "odd \"name\"\n\u{2028}\\\u{7}.csv";
    let table = "node,kind,construct,inside,next,where\n0,barrier,,,1,\n1,critical,0,,2,\"<\"\"q\"\"> \\ \u{e9}\"\n2,end,0,,3,\n3,barrier,,,,\n";
    let path = file(&folder, name, table);
    let checked = document(&["check", "--json", &path]);
    assert_eq!(checked.get("file").text(), path);
    let locks = document(&["locks", "--json", &path]);
    let critical = &locks.get("criticals").items()[0];
    assert_eq!(critical.get("where").text(), "<\"q\"> \\ \u{e9}");
    assert_eq!(critical.get("lock").text(), "can go");
}
