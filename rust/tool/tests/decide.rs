//! `bohrali locks DIR --decide FILE`: what goes, under which conditions, and what is refused.

mod common;

use common::{file, flow, folder, good, refused};
use std::fs;
use std::path::Path;

const ALL: &str = "conforming,one-host-thread,whole-program,unknown-routines";

/// A stored flow with the hash that the plugin writes.
fn sealed(unit: &str) -> String {
    let text = fs::read_to_string(flow(unit)).expect("a flow");
    let (rows, complete) = text.rsplit_once("complete").expect("a whole flow");
    let hash = frontend::hash(rows.as_bytes());
    format!("{rows}hash {hash}\ncomplete{complete}")
}

/// The tables of a flow.
fn tables(folder: &Path, flow: &str) -> String {
    let flow = file(folder, "a.flow", flow);
    let tables = folder.join("tables").display().to_string();
    good(&["regions", &flow, "-o", &tables]);
    tables
}

fn out(folder: &Path) -> String {
    folder.join("locks.decided").display().to_string()
}

#[test]
fn what_can_go_in_every_run_goes() {
    let folder = folder("decide");
    let flow = sealed("locks1.c");
    let (tables, out) = (tables(&folder, &flow), out(&folder));
    let said = good(&["locks", &tables, "--decide", &out, "--assume", ALL]);
    assert!(said.contains("5 locks to be left out"), "{said}");
    let text = fs::read_to_string(&out).expect("decisions");
    let hash = flow.lines().find_map(|x| x.strip_prefix("hash "));
    let hash = hash.expect("a hash");
    assert!(text.contains(&format!("\nunit {hash} hand/locks1.c\n")));
    let rows = text.lines().filter(|x| x.starts_with("drop "));
    let rows: Vec<Vec<&str>> = rows.map(|x| x.split(' ').collect()).collect();
    let told: Vec<[&str; 3]> = rows.iter().map(|x| [x[3], x[5], x[7]]).collect();
    let expected = [
        ["hand/locks1.c:11", "name=a", "rules=3"],
        ["hand/locks1.c:18", "name=c", "rules=2"],
        ["hand/locks1.c:24", "name=c", "rules=2"],
        ["hand/locks1.c:38", "name=e", "rules=1,3"],
        ["hand/locks1.c:45", "name=e", "rules=1,3"],
    ];
    assert_eq!(told, expected, "{text}");
    let each = |x: &Vec<&str>| {
        let words = [&format!("flow={hash}"), "runs=every", &format!("if={ALL}")];
        words.iter().all(|y| x.contains(y)) && x[2] == "region"
    };
    assert!(rows.iter().all(each), "{text}");
    let (before, last) = text.rsplit_once("complete ").expect("an end");
    assert_eq!(last.trim_end(), frontend::hash(before.as_bytes()));
}

#[test]
fn the_same_flows_decide_the_same() {
    let folder = folder("decide-again");
    let (tables, out) = (tables(&folder, &sealed("locks1.c")), out(&folder));
    let words = ["locks", &tables, "--decide", &out, "--assume", ALL];
    good(&words);
    let first = fs::read(&out).expect("decisions");
    good(&words);
    assert_eq!(first, fs::read(&out).expect("decisions"));
}

#[test]
fn nothing_goes_that_nobody_vouches_for() {
    let folder = folder("decide-open");
    let (tables, out) = (tables(&folder, &sealed("locks1.c")), out(&folder));
    let kinds: Vec<&str> = ALL.split(',').collect();
    for missing in &kinds {
        let others: Vec<&str> = kinds.iter().copied().filter(|x| x != missing).collect();
        let mut words = vec!["locks", &tables, "--decide", &out];
        words.extend(others.iter().flat_map(|x| ["--assume", x]));
        let said = refused(&words);
        assert!(said.contains("nothing is decided: 5 locks"), "{said}");
        assert_eq!(said.matches("--assume").count(), 1, "{said}");
        assert!(said.contains(&format!("--assume {missing}: ")), "{said}");
        assert!(!Path::new(&out).exists());
    }
}

#[test]
fn a_lighter_fence_is_asked_for() {
    let folder = folder("decide-fence");
    let (tables, out) = (tables(&folder, &sealed("locks1.c")), out(&folder));
    for (also, fence) in [("", "fence full\n"), (",acquire-release", "fence light\n")] {
        let assumed = format!("{ALL}{also}");
        good(&["locks", &tables, "--decide", &out, "--assume", &assumed]);
        let text = fs::read_to_string(&out).expect("decisions");
        assert!(text.contains(fence), "{text}");
    }
}

#[test]
fn words_that_make_no_sense() {
    let folder = folder("decide-words");
    let (tables, out) = (tables(&folder, &sealed("locks1.c")), out(&folder));
    let cases: [(&[&str], &str); 6] = [
        (&["--decide", &out, "--assume", "luck"], "knows no 'luck'"),
        (&["--assume", ALL], "--assume is for --decide"),
        (&["--finished"], "--finished is for --decide"),
        (&["--decide"], "--decide wants FILE"),
        (
            &["--decide", &out, "--decide", &out],
            "--decide is given twice",
        ),
        (
            &["--decide", "/nowhere/at/all", "--assume", ALL],
            "cannot be written",
        ),
    ];
    for (words, expected) in cases {
        let said = refused(&[&["locks", &tables], words].concat());
        assert!(said.contains(expected), "{said}");
    }
    let said = refused(&["locks", "playtest.csv", "--decide", &out]);
    assert!(said.contains("about a whole program"), "{said}");
}

#[test]
fn flows_and_tables_are_taken_as_they_were_written() {
    let folder = folder("decide-edited");
    let out = out(&folder);
    let unsealed = tables(
        &folder,
        &fs::read_to_string(flow("locks1.c")).expect("a flow"),
    );
    let said = refused(&["locks", &unsealed, "--decide", &out, "--assume", ALL]);
    assert!(said.contains("has no hash in its flow"), "{said}");

    let edited = sealed("locks1.c").replace("critical", "single");
    let edited = file(&folder, "edited.flow", edited);
    let said = refused(&["regions", &edited, "-o", &unsealed]);
    assert!(said.contains("changed after it was written"), "{said}");

    let tables = tables(&folder, &sealed("locks1.c"));
    let words = ["locks", &tables, "--decide", &out, "--assume", ALL];
    let table = Path::new(&tables).join("region-7.csv");
    let text = fs::read_to_string(&table).expect("a table");
    fs::write(&table, text.replace("critical b", "critical bb")).expect("a table");
    let said = refused(&words);
    assert!(said.contains("changed after they were written"), "{said}");
    fs::write(&table, text).expect("a table");
    good(&words);

    let units = Path::new(&tables).join("units.txt");
    for damaged in [
        "",
        "bohrali-units 2\n",
        "bohrali-units 1\nunit\n",
        "bohrali-units 1\ncritical 9 a b c d\n",
    ] {
        fs::write(&units, damaged).expect("units");
        let said = refused(&words);
        assert!(said.contains("units.txt"), "{said}");
    }
    fs::remove_file(&units).expect("units");
    assert!(refused(&words).contains("units.txt"));
}
