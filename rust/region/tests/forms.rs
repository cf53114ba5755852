//! The forms of a file, and of a table's text; source places; rows put in.

use region::load::{bounded, bytes, form, region};
use region::{tidy, Form, Lines, Place, Table};
use std::path::Path;

const GAME: &str = include_str!("tables/game.csv");

#[test]
fn separators_marks_line_ends_and_quotes() {
    let table = Table::read(GAME.as_bytes()).expect("the table");
    let semicolons = GAME.replace(',', ";");
    let tabs = GAME.replace(',', "\t");
    let marked = format!("\u{feff}{}", GAME.replace('\n', "\r\n"));
    let quoted = GAME
        .replace("plain", "\"plain\"")
        .replace("next", " \"Next\" ");
    let old = GAME.replace('\n', "\r");
    let trailing = format!("{GAME}\n,,,,,\n  \n");
    for text in [semicolons, tabs, marked, quoted, old, trailing] {
        assert_eq!(Table::read(text.as_bytes()).as_ref(), Ok(&table), "{text}");
    }
    let noted = GAME
        .replace("where\n", "where,Note,notes of ours\n")
        .replace("playtest.c:14\n", "playtest.c:14,=1,2\n");
    assert_eq!(Table::read(noted.as_bytes()), Ok(table));
}

#[test]
fn forms_are_told_by_content() {
    let chart = Table::read(GAME.as_bytes())
        .expect("the table")
        .chart
        .encode();
    assert_eq!(form(&chart), Form::Chart);
    assert_eq!(form(GAME.as_bytes()), Form::Table);
    assert_eq!(form(b"l{S{s}nb}\n"), Form::Listing);
    assert_eq!(form(b"nod;kind"), Form::Table);
    assert_eq!(form(b""), Form::Table);
    let loaded = region(&chart).expect("a chart");
    assert_eq!((loaded.form, loaded.bytes), (Form::Chart, chart));
    let loaded = region(b"S{s}n\n").expect("a listing");
    assert_eq!((loaded.form, loaded.counts.nodes), (Form::Listing, 5));
}

#[test]
fn what_is_refused_has_its_number() {
    let refusal = |bytes: &[u8]| region(bytes).unwrap_err().refusal.map(|x| x.number());
    assert_eq!(refusal(b"l{S{s}"), Some(14));
    assert_eq!(refusal(b"C{C{s}}"), Some(6));
    assert_eq!(refusal(&[0; 15]), Some(1));
    assert_eq!(refusal(&[0; 16]), Some(2));
    assert_eq!(refusal(b""), None);
}

#[test]
fn text_that_is_not_utf_8_is_told_by_row() {
    let latin = GAME
        .replace("the team starts", "caf\u{e9}")
        .replace('\u{e9}', "\u{1}");
    let latin: Vec<u8> = latin
        .bytes()
        .map(|x| if x == 1 { 0xE9 } else { x })
        .collect();
    let wrong = Table::read(&latin).unwrap_err().to_string();
    assert_eq!(
        wrong,
        "row 2: a letter here is not UTF-8: save the sheet as 'CSV UTF-8'"
    );
    let wide: Vec<u8> = "\u{feff}node,"
        .encode_utf16()
        .flat_map(u16::to_le_bytes)
        .collect();
    let wrong = region(&wide).unwrap_err().to_string();
    assert_eq!(
        wrong,
        "the text is UTF-16, UTF-8 expected: save the sheet as 'CSV UTF-8'"
    );
}

#[test]
fn long_rows_and_long_files_are_told() {
    let long = format!("{GAME}40,{}", "x".repeat(1_000_000));
    let wrong = Table::read(long.as_bytes()).unwrap_err().to_string();
    assert_eq!(
        wrong,
        "row 42: the row has 1000003 bytes; 8192 are the most"
    );
    let empty = format!("{}\n{}x", GAME, "\n".repeat(1_000_000));
    assert!(Table::read(empty.as_bytes()).is_err());
    let endless = bounded(std::io::repeat(b'x'), 1000).unwrap_err();
    assert!(
        endless.starts_with("the file is longer than the 1000 bytes"),
        "{endless}"
    );
}

#[test]
fn what_is_no_file_is_told() {
    let told = |path: &str| bytes(Path::new(path), 10).unwrap_err();
    assert_eq!(told("/"), "this is a directory, a file is expected");
    assert_eq!(
        told("/dev/null"),
        "this is no ordinary file, which is expected"
    );
    assert_eq!(told("/no/such/file"), "there is no such file");
}

#[test]
fn places_are_source_lines_or_nodes() {
    let lines = |file: &str, first, last| Lines {
        file: file.into(),
        first,
        last,
    };
    let cell = "src/a.c:12, (b.c:3-5; x.c:0 y.c:7- z:9 the rest: 4";
    let found: Vec<Lines> = Lines::in_cell(cell).collect();
    assert_eq!(
        found,
        [
            lines("src/a.c", 12, 12),
            lines("(b.c", 3, 5),
            lines("z", 9, 9)
        ]
    );
    assert_eq!(Place::read("17"), Some(Place::Node(17)));
    assert_eq!(
        Place::read("a.c:2-4"),
        Some(Place::Source(lines("a.c", 2, 4)))
    );
    assert_eq!(
        Place::read("C:\\game\\a.c:2"),
        Some(Place::Source(lines("\\game\\a.c", 2, 2)))
    );
    for wrong in [
        "",
        "a.c",
        "a.c:",
        ":3",
        "a.c:4-2",
        "a.c:01",
        "-1",
        "a.c:99999999999",
    ] {
        assert_eq!(Place::read(wrong), None, "{wrong}");
    }
}

#[test]
fn a_place_names_all_nodes_that_are_there() {
    let mut table = Table::read(GAME.as_bytes()).expect("the table");
    let nodes = |table: &Table, word: &str| Place::read(word).expect("a place").nodes(table);
    assert_eq!(nodes(&table, "playtest.c:18"), [4, 5]);
    assert_eq!(nodes(&table, "playtest.c:21"), [8]);
    assert_eq!(nodes(&table, "playtest.c:22-25"), [9, 10, 11]);
    assert_eq!(nodes(&table, "test.c:18"), [0; 0]);
    assert_eq!(nodes(&table, "9"), [9]);
    table.places[4] = "game/playtest.c:18".into();
    assert_eq!(nodes(&table, "playtest.c:18"), [4, 5]);
    assert_eq!(nodes(&table, "game/playtest.c:18"), [4]);
}

#[test]
fn rows_that_are_put_in_are_numbered() {
    let text = "node;kind;construct;inside;next;where;note\n\
        0;barrier;;;below;;a, b\n\
        ;plain;;;below 2;new\n\
        1;plain;;;2;\n\
        2;barrier;;;;\n";
    let tidied = "node,kind,construct,inside,next,where,note\n\
        0,barrier,,,1,,\"a, b\"\n\
        1,plain,,,2 3,new\n\
        2,plain,,,3,\n\
        3,barrier,,,,\n";
    assert_eq!(tidy(text.as_bytes()), Ok(tidied.into()));
    assert_eq!(tidy(tidied.as_bytes()), Ok(tidied.into()));
    let told = |from: &str, to: &str| {
        tidy(text.replacen(from, to, 1).as_bytes())
            .unwrap_err()
            .to_string()
    };
    let twice = told("\n2;", "\n1;");
    let last =
        "row 5, column node (A): number '1' stands in row 4 too; empty the cell of the new row";
    assert_eq!(twice.lines().last(), Some(last));
    let first = "row 3, column next (E): no row has the number '2'";
    assert_eq!(twice.lines().next(), Some(first));
    assert_eq!(
        told("2;barrier;;;;", "2;barrier;;;below;"),
        "row 5, column next (E): no row is below the last"
    );
    assert_eq!(
        told("kind", "sort").split(':').next(),
        Some("row 1, column B")
    );
}
