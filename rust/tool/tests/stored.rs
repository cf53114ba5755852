//! What every command prints on the example, held to what is stored in tests/expected. With STORE=1 in the
//! environment it is stored anew, for a person to read what changed.

mod common;

use common::{chart, example, file, flow, folder, told};
use std::env;
use std::fs;
use std::path::Path;

const TABLE: &str = "playtest.csv";
const CLAIMS: &str = "playtest.claims";

/// Runs commands and compares what they print, behind the words and before the status of each.
#[track_caller]
fn compare(name: &str, commands: &[&[&str]]) {
    let mut text = String::new();
    for words in commands {
        let (status, out, err) = told(words);
        text += &format!("$ bohrali {}\n{out}", shown(&words.join(" ")));
        for line in err.lines() {
            text += &format!("! {}\n", shown(line));
        }
        text += &format!("= {status}\n\n");
    }
    let stored = Path::new(env!("CARGO_MANIFEST_DIR")).join("tests/expected");
    let stored = stored.join(format!("{name}.txt"));
    let text = shown(&text);
    if env::var_os("STORE").is_some() {
        fs::write(&stored, &text).expect("the file is stored");
    }
    let expected = fs::read_to_string(&stored).unwrap_or_default();
    assert!(
        text == expected,
        "tests/expected/{name}.txt differs:\n{text}"
    );
}

/// A text without the folders of this machine.
fn shown(text: &str) -> String {
    let temporary = format!("{}/", env!("CARGO_TARGET_TMPDIR"));
    let charts = chart("s").with_file_name("");
    let charts = charts.to_str().expect("a path that is text");
    let flows = concat!(env!("CARGO_MANIFEST_DIR"), "/../frontend/tests/flows/");
    text.replace(&temporary, "")
        .replace(charts, "charts/")
        .replace(flows, "flows/")
}

#[test]
fn help() {
    let commands = [
        "check",
        "sheet",
        "pair",
        "why",
        "judge",
        "locks",
        "races",
        "diff",
        "page",
        "phases",
        "distances",
        "replay",
        "convert",
        "tidy",
        "regions",
        "ask",
    ];
    compare("help", &[&["--help"], &["--version"]]);
    let each: Vec<Vec<&str>> = commands.iter().map(|x| vec![*x, "--help"]).collect();
    let each: Vec<&[&str]> = each.iter().map(Vec::as_slice).collect();
    compare("help-commands", &each);
    for command in commands {
        assert_eq!(told(&["help", command]), told(&[command, "--help"]));
    }
}

#[test]
fn check() {
    let folder = folder("stored-check");
    let table = fs::read_to_string(example().join(TABLE)).expect("the table");
    let cells = file(&folder, "cells.csv", table.replace(",plain,", ",plan,"));
    let paths = file(
        &folder,
        "paths.csv",
        table.replace("1,plain,,,2 48", "1,plain,,,2"),
    );
    let figure = chart("figure-2b");
    let figure = figure.to_str().expect("a path that is text");
    compare(
        "check",
        &[
            &["check", TABLE],
            &["check", figure, TABLE, "no-such.csv"],
            &["check", &cells],
            &["check", &paths],
            &["check", "--json", TABLE],
            &["check", "--json", &paths],
            &["check", "--json", TABLE, "no-such.csv"],
        ],
    );
}

#[test]
fn sheet() {
    compare(
        "sheet",
        &[
            &["sheet", TABLE],
            &["sheet", TABLE, "--region", "9"],
            &["sheet", TABLE, "--region=9", "--size", "1"],
            &["sheet", TABLE, "--size", "2", "--csv"],
            &["sheet", TABLE, "--region", "9", "--json"],
        ],
    );
}

#[test]
fn pair() {
    compare(
        "pair",
        &[
            &["pair", TABLE, "4", "4"],
            &["pair", TABLE, "playtest.c:79", "playtest.c:76"],
            &["pair", TABLE, "playtest.c:82-87", "14"],
            &["pair", TABLE, "34", "34", "--region", "9"],
            &["pair", TABLE, "45", "45", "--size", "2"],
            &["pair", TABLE, "4", "14", "--json"],
            &["pair", TABLE, "playtest.c:66", "4", "--json", "--size", "4"],
            &["pair", TABLE, "10", "4"],
            &["pair", TABLE, "playtest.c:111", "4"],
            &["pair", TABLE, "playtest.c:3", "4"],
            &["pair", TABLE, "4", "4", "--region", "8"],
        ],
    );
}

#[test]
fn why() {
    let folder = folder("stored-why");
    let trace = folder.join("run.trace");
    let trace = trace.to_str().expect("a path that is text");
    let figure = chart("figure-2b");
    let figure = figure.to_str().expect("a path that is text");
    compare(
        "why",
        &[
            &["why", TABLE, "14", "17", "--trace", trace],
            &["replay", TABLE, trace],
            &["why", TABLE, "playtest.c:79", "14", "--json"],
            &["why", TABLE, "14", "14", "--size", "4"],
            &["why", TABLE, "4", "4", "--json"],
            &["why", TABLE, "4", "4", "--trace", trace],
            &["why", TABLE, "34", "34", "--region", "9"],
            &["why", TABLE, "14", "17", "--size", "16"],
            &["why", TABLE, "playtest.c:82-87", "14"],
            &["why", figure, "7", "8"],
            &["why", figure, "7", "8", "--json"],
            &["why", figure, "4", "8", "--all"],
            &["why", TABLE, "10", "4"],
            &["why", TABLE, "4", "4", "--region", "8"],
            &["why", TABLE, "4", "4", "--size", "0"],
        ],
    );
}

#[test]
fn judge() {
    let folder = folder("stored-judge");
    let fails = file(
        &folder,
        "fails.claims",
        "# two\nnever playtest.c:68 4\nnever playtest.c:79 14 # false\n",
    );
    let wrong = file(&folder, "wrong.claims", "never playtest.c:68 playtest.c:500\nalways 4 4\nnever 4\nnever 4 47\nnever 4 99\nnever 4 x\n");
    let none = file(&folder, "none.claims", "# nothing\n");
    compare(
        "judge",
        &[
            &["judge", TABLE, CLAIMS],
            &["judge", TABLE, &fails],
            &["judge", TABLE, &fails, "--size", "1"],
            &["judge", TABLE, &wrong],
            &["judge", TABLE, &none],
            &["judge", "--json", TABLE, CLAIMS],
            &["judge", "--json", TABLE, &fails],
            &["judge", "--why", TABLE, &fails],
            &["judge", "--why", "--json", TABLE, &fails],
            &["judge", "--why", TABLE, CLAIMS],
        ],
    );
}

#[test]
fn locks() {
    compare(
        "locks",
        &[
            &["locks", TABLE],
            &["locks", TABLE, "--strict"],
            &["locks", TABLE, "--size", "1"],
            &["locks", TABLE, "--size", "1", "--region", "9"],
            &["locks", TABLE, "--region", "9"],
            &["locks", TABLE, "--json"],
            &["locks", TABLE, "--why"],
            &["locks", TABLE, "--why", "--json"],
        ],
    );
}

#[test]
fn races() {
    let folder = folder("stored-races");
    let accesses = "# what is read and written\n\
        write playtest.c:68 deck\nread playtest.c:76 deck\n\
        write playtest.c:79 board\nread playtest.c:87 board\n\
        read 12 board\nwrite playtest.c:109 saves\n";
    let accesses = file(&folder, "game.accesses", accesses);
    let wrong = file(
        &folder,
        "wrong.accesses",
        "write 4\nadd 4 board\nread playtest.c:1 board\n",
    );
    compare(
        "races",
        &[
            &["races", TABLE, &accesses],
            &["races", TABLE, &accesses, "--strict"],
            &["races", TABLE, &accesses, "--json"],
            &["races", TABLE, &wrong],
        ],
    );
}

#[test]
fn phases_and_distances() {
    compare(
        "phases-distances",
        &[
            &["phases", TABLE],
            &["phases", TABLE, "--region", "9"],
            &["phases", TABLE, "--region", "9", "--json"],
            &["distances", TABLE],
            &["distances", TABLE, "--region", "9"],
            &["distances", TABLE, "--json"],
        ],
    );
}

#[test]
fn diff() {
    let folder = folder("stored-diff");
    let table = fs::read_to_string(example().join(TABLE)).expect("the table");
    let returning = file(
        &folder,
        "returning.csv",
        table.replace("9,end,0,,10,", "9,end,0,,2 10,"),
    );
    let ordered = table.replace("16,ordered,5,3,17", "16,critical log,5,3,17");
    let locked = file(&folder, "locked.csv", ordered);
    let added = table
        .replacen("\n2,", "\n,plain,,,2,new\n2,", 1)
        .replacen("2 48", "below 48", 1);
    let tidied = region::tidy(added.as_bytes()).expect("rows can be numbered");
    let inserted = file(&folder, "inserted.csv", tidied);
    let unnamed = file(
        &folder,
        "unnamed.csv",
        table.replace("playtest.c", "other.c"),
    );
    compare(
        "diff",
        &[
            &["diff", TABLE, TABLE],
            &["diff", TABLE, &returning],
            &["diff", &returning, TABLE],
            &["diff", TABLE, &locked],
            &["diff", TABLE, &locked, "--json"],
            &["diff", TABLE, &locked, "--region", "9"],
            &["diff", TABLE, &locked, "--size", "1"],
            &["diff", TABLE, &inserted, "--by", "where"],
            &["diff", TABLE, &unnamed, "--by", "where"],
            &["diff", TABLE, &locked, "--by", "line"],
            &["diff", TABLE, &locked, "--region", "8"],
        ],
    );
}

#[test]
fn convert_and_tidy() {
    let folder = folder("stored-convert");
    let chart = folder.join("out.chart");
    let chart = chart.to_str().expect("a path that is text");
    let rows = "node;kind;construct;inside;next;where\n0;barrier;;;below;\n;plain;;;below;\n1;barrier;;;;\n";
    let rows = file(&folder, "rows.csv", rows);
    let listing = file(&folder, "shape.listing", "l{S{sC{s}}b}\n");
    compare(
        "convert-tidy",
        &[
            &["convert", TABLE],
            &["convert", TABLE, "-o", chart],
            &["convert", chart],
            &["convert", &listing],
            &["convert", TABLE, "-o", "out.txt"],
            &["check", &rows],
            &["tidy", &rows],
            &["tidy", chart],
            &["tidy", &rows, "-o", &rows],
            &["check", &rows],
        ],
    );
}

#[test]
fn replay() {
    let folder = folder("stored-replay");
    let chart = chart("s-single");
    let chart = chart.to_str().expect("a path that is text");
    let finished = file(
        &folder,
        "finished.trace",
        b"\0\x01\x01\x01\0\x02\x01\x03\x01\x04\0\x03\0\x04",
    );
    let unfinished = file(&folder, "unfinished.trace", "0 1\n1 1 # both leave\n0 2\n");
    let forbidden = file(&folder, "forbidden.trace", "0 1\n1 1\n0 2\n1 2\n");
    let wrong = file(&folder, "wrong.trace", "0 1\n1\n0 x\n");
    let odd = file(&folder, "odd.trace", b"\0\x01\x01");
    compare(
        "replay",
        &[
            &["replay", chart, &finished],
            &["replay", chart, &finished, "--json"],
            &["replay", chart, &unfinished],
            &["replay", chart, &unfinished, "--strict"],
            &["replay", chart, &forbidden],
            &["replay", chart, &forbidden, "--json"],
            &["replay", chart, &forbidden, "--size", "9"],
            &["replay", chart, &wrong],
            &["replay", chart, &odd],
            &["replay", chart, &finished, "--region", "3"],
        ],
    );
}

#[test]
fn mistyped_words() {
    compare(
        "mistyped",
        &[
            &["chek", TABLE],
            &["frobnicate"],
            &["sheet", TABLE, "--sise", "3"],
            &["sheet", TABLE, "--size"],
            &["sheet", TABLE, "--size", "many"],
            &["sheet", TABLE, "--size", "0"],
            &["sheet", TABLE, "--size", "3", "--size", "4"],
            &["sheet", TABLE, "--csv=yes"],
            &["sheet"],
            &["pair", TABLE, "1", "2", "3"],
            &["help", "loks"],
        ],
    );
}

/// A whole program, from the flow of its units on.
#[test]
fn programs() {
    let folder = folder("programs");
    let tables = &folder.join("tables").display().to_string();
    let claims = "never h1.c:21 h1.c:27\nnever h1.c:21 h1.c:21\n";
    let claims = file(&folder, "claims", claims);
    let trace = folder.join("run.trace").display().to_string();
    let unanswered = file(&folder, "unanswered", "never h5.c:49 h5.c:50\n");
    let wrong = file(&folder, "cut.flow", "bohrali-flow 1\nunit a.c\n");
    let [hand, calls, locks, inner] = ["h1.c", "h5.c", "locks1.c", "locks2.c"].map(flow);
    let others = &folder.join("others").display().to_string();
    compare(
        "programs",
        &[
            &["regions", &hand, &calls, &locks, "-o", tables],
            &["locks", tables],
            &["locks", "--strict", "--json", tables],
            &["regions", &inner, "-o", others],
            &["locks", others],
            &["ask", "h1.c:21", "h1.c:27", tables],
            &["ask", "hand/h1.c:21", "h1.c:21", tables],
            &["ask", "h5.c:49", "h5.c:50", tables],
            &["ask", "h1.c:21", "h5.c:50", tables],
            &["ask", "--json", "h1.c:23", "h1.c:23", tables],
            &["ask", "h1.c", "h1.c:21", tables],
            &["why", tables, "h1.c:21", "h1.c:27"],
            &["why", tables, "h5.c:68", "h5.c:68"],
            &["why", tables, "h5.c:69", "h5.c:69", "--json"],
            &["why", tables, "h5.c:49", "h5.c:50"],
            &["why", tables, "h5.c:49", "h5.c:50", "--json"],
            &["why", tables, "h1.c:21", "h1.c:9999", "--trace", &trace],
            &["why", tables, "h1.c", "h1.c:21"],
            &["why", tables, "h1.c:21", "4"],
            &["why", "--size", "2", tables, "h1.c:21", "h1.c:21"],
            &["judge", tables, &claims],
            &["judge", tables, &unanswered],
            &["judge", "--size", "2", tables, &claims],
            &["regions", &wrong, "no-such.flow", "-o", tables],
            &["regions", &hand],
            &["regions", &hand, "-o", "."],
        ],
    );
}
