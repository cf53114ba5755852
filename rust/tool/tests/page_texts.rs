//! The page without a browser: whole pages as they are stored, texts that try to be more, and its colours. With STORE=1 in the
//! environment pages are stored anew, for a person to read what changed.

mod common;

use common::json::Value;
use common::{chart, data, example, file, flow, folder, good, page, refused};
use std::env;
use std::fs;
use std::path::{Path, PathBuf};

fn page_file(name: &str) -> String {
    let path = Path::new(env!("CARGO_MANIFEST_DIR")).join("../../page");
    fs::read_to_string(path.join(name)).expect("a file of the page")
}

/// The page as it is stored: style and script stand in the folder page/ already, and the data has a line for each field.
fn readable(page: &str) -> String {
    let mut page = page.to_string();
    let names = [
        "chart", "rows", "sheet", "runs", "layers", "panel", "all", "paper", "state", "page",
    ];
    let script: String = names.map(|x| page_file(&format!("{x}.js"))).concat();
    for (part, slot) in [(page_file("page.css"), "@STYLE@"), (script, "@SCRIPT@")] {
        assert_eq!(page.matches(&part).count(), 1, "{slot}");
        page = page.replace(&part, slot);
    }
    page.replace(",\"", ",\n\"").replace("},{", "},\n{")
}

#[track_caller]
fn compare(name: &str, page: &str) {
    let folder = Path::new(env!("CARGO_MANIFEST_DIR")).join("tests/expected/page");
    let path = folder.join(format!("{name}.txt"));
    let text = readable(page);
    if env::var_os("STORE").is_some() {
        fs::create_dir_all(&folder).expect("a folder");
        fs::write(&path, &text).expect("the page is stored");
    }
    let stored = fs::read_to_string(&path).unwrap_or_default();
    assert!(text == stored, "{} differs:\n{text}", path.display());
}

/// The tables of the front end's programs, as a name that does not change.
fn tables(test: &str, units: &[&str]) -> PathBuf {
    let tables = folder(test).join("tables");
    let flows: Vec<String> = units.iter().map(|x| flow(x)).collect();
    let mut words = vec!["regions"];
    words.extend(flows.iter().map(String::as_str));
    good(&[&words[..], &["-o", tables.to_str().expect("text")]].concat());
    tables
}

#[test]
fn pages_are_as_they_are_stored() {
    for name in ["s-single-returning", "y", "d"] {
        let page = page("page-stored", &[&format!("../../charts/{name}.chart")]);
        assert!(chart(name).is_file());
        compare(name, &page);
    }
    compare("playtest", &page("page-stored", &["playtest.csv"]));
    let tables = tables("page-stored-tables", &["locks1.c", "h5.c"]);
    let tables = tables.to_str().expect("text");
    let page = page("page-stored", &[tables]);
    compare("program", &page.replace(tables, "tables"));
}

#[test]
fn a_directory_is_shown_with_its_notes_and_locks() {
    let tables = tables("page-directory", &["locks1.c", "h5.c"]);
    let tables = tables.to_str().expect("text");
    let page = data(&page("page-directory-out", &[tables]));
    let locks = Value::read(&good(&["locks", tables, "--json"]));
    let (program, locks) = (page.get("program"), locks.get("criticals").items());
    let told = program.get("criticals").items();
    assert_eq!(told.len(), locks.len());
    for (told, lock) in told.iter().zip(locks) {
        for key in ["critical", "where", "lock"] {
            assert_eq!(told.get(key), lock.get(key));
        }
    }
    let regions = page.get("regions").items();
    let names: Vec<&str> = regions.iter().map(|x| x.get("name").text()).collect();
    assert!(names.contains(&"region at hand/locks1.c:7"), "{names:?}");
    for region in regions {
        // a region's own locks are those of the program
        for lock in region.get("locks").items() {
            let begin = &region.get("constructs").items()[lock.get("construct").number() as usize];
            let node = &region.get("nodes").items()[begin.get("begin").number() as usize];
            let place = node.items()[2].text();
            let of_it = |x: &&Value| place.starts_with(x.get("where").text());
            let told = told.iter().find(of_it).expect("its critical");
            assert_eq!(told.get("lock"), lock.get("lock"), "{place}");
        }
        let file = region.get("file").text().replace(".csv", ".txt");
        let notes = fs::read_to_string(file).expect("notes");
        let rows = notes.lines().skip(1).filter(|x| !x.starts_with("region: "));
        let told = region.get("notes").items().iter();
        let told = told.map(|x| format!("{}: {}", x.items()[0].text(), x.items()[1].text()));
        assert!(rows.eq(told), "{notes}");
    }
    let about = |words: &[&str]| refused(&[&["page", tables], words, &["-o", "no.html"]].concat());
    assert!(about(&["playtest.csv"]).contains("stands for a whole program: name it alone"));
    assert!(about(&["--compare"]).contains("are for files: name its tables"));
    assert!(about(&["--size", "2"]).contains("this is a directory of tables"));
}

/// A table whose nodes are at these places.
fn placed(places: [&str; 5], name: &str) -> String {
    let quoted = places.map(|x| format!("\"{}\"", x.replace('"', "\"\"")));
    let [a, b, c, d, e] = quoted;
    format!(
        "node,kind,construct,inside,next,where\n0,barrier,,,1,{a}\n1,critical{name},0,,2,{b}\n2,plain,,0,3,{c}\n3,end,0,,4,{d}\n4,barrier,,,,{e}\n"
    )
}

const HOSTILE: [&str; 4] = [
    "</script><script>window.hit=1</script>",
    "<!--<script>",
    "\"><img src=x onerror='window.hit=1'>",
    "a\u{2028}b\u{2029}c\u{1}a\u{1b}[1m\u{7f} &lt; {{7*7}} @DATA@ @SCRIPT@",
];

#[test]
fn hostile_text_is_text() {
    let folder = folder("page-hostile");
    let long = "x".repeat(8_000);
    let [a, b, c, d] = HOSTILE;
    let places = [a, b, c, d, &long];
    let word = format!("n{}", "m".repeat(7_000));
    let table = file(&folder, "<b>&\"'\u{2028}.csv", placed(places, ""));
    let page = page("page-hostile-out", &[&table]);
    assert_eq!(page.matches("<script").count(), 2);
    assert_eq!(page.matches("</script>").count(), 2);
    assert!(!page.contains('\u{2028}') && !page.contains('\u{1}'));
    let data = data(&page);
    let region = &data.get("regions").items()[0];
    assert_eq!(region.get("file").text(), table);
    for (node, place) in region.get("nodes").items().iter().zip(places) {
        assert_eq!(node.items()[2].text(), place);
    }
    let named = file(&folder, "named.csv", placed([""; 5], &format!(" {word}")));
    let page = common::page("page-hostile-out", &[&named]);
    let data = common::data(&page);
    let constructs = data.get("regions").items()[0].get("constructs").items();
    assert_eq!(
        constructs[0].get("label").text(),
        format!("critical {word}")
    );
    let longer = "y".repeat(10_000);
    let wide = file(&folder, "wide.csv", placed([&longer, "", "", "", ""], ""));
    let said = refused(&["page", &wide, "-o", "no.html"]);
    assert!(
        said.contains("wide.csv: row 2") && said.contains("8192"),
        "{said}"
    );
}

#[test]
fn hostile_notes_are_text() {
    let tables = tables("page-hostile-notes", &["h5.c"]);
    let notes = tables.join("region-39.txt");
    let mut text = fs::read_to_string(&notes).expect("notes");
    for hostile in HOSTILE {
        text += &format!("unknown routine: {hostile}\n");
    }
    fs::write(&notes, text).expect("notes");
    let page = page("page-hostile-out-notes", &[tables.to_str().expect("text")]);
    assert_eq!(page.matches("<script").count(), 2);
    let data = data(&page);
    let told: Vec<&Value> = data.get("regions").items().iter().collect();
    let notes = told.iter().flat_map(|x| x.get("notes").items());
    let said: Vec<&str> = notes.map(|x| x.items()[1].text()).collect();
    assert!(HOSTILE.iter().all(|x| said.contains(x)), "{said:?}");
}

#[test]
fn source_is_read_below_its_folder_alone() {
    let folder = folder("page-source");
    fs::create_dir(folder.join("src")).expect("a folder");
    file(&folder, "secret.c", "secret\n");
    let long = format!("{}\n", "<b>".repeat(5_000));
    file(
        &folder.join("src"),
        "a.c",
        format!("open\n{long}{}", "line\n".repeat(20)),
    );
    let secret = folder.join("secret.c");
    let (source, out) = (folder.join("src"), folder.join("out.html"));
    let [secret, source, out] = [&secret, &source, &out].map(|x| x.to_str().expect("text"));
    let table = format!(
        "node,kind,construct,inside,next,where\n0,barrier,,,1,a.c:1\n1,plain,,,2,../secret.c:1\n2,plain,,,3,{secret}:1\n3,plain,,,4,a.c:2\n4,plain,,,5,a.c:3-20\n\
         5,plain,,,6,{source}/a.c:1\n6,plain,,,7,{source}/../secret.c:1\n7,barrier,,,,a.c:99\n"
    );
    let table = file(&folder, "t.csv", table);
    good(&["page", &table, "-o", out, "--source", source]);
    let page = data(&fs::read_to_string(out).expect("the page"));
    let nodes = page.get("regions").items()[0].get("nodes").items();
    let codes: Vec<&str> = nodes.iter().map(|x| x.items()[3].text()).collect();
    let cut = format!("{} …", &long[..200]);
    let many = format!("{}…", "line\n".repeat(12));
    assert_eq!(codes, ["open", "", "", &cut, &many, "open", "", ""]);
}

#[test]
fn same_bytes_and_nothing_from_elsewhere() {
    let files = ["playtest.csv", "playtest.csv"];
    let one = page("page-twice", &files);
    assert_eq!(one, page("page-twice", &files));
    assert!(!one.contains("http"), "nothing comes from elsewhere");
    assert!(!one.contains("@DATA@") && !one.contains("@SCRIPT@") && !one.contains("@STYLE@"));
    let page = data(&one);
    let nodes = page.get("regions").items()[0].get("nodes").items();
    assert_eq!(nodes[4].items()[3].text().trim(), "shuffle(round);");
    assert!(example().join("playtest.csv").is_file());
    assert_eq!(
        refused(&["page", "playtest.csv"]),
        "bohrali: page: -o OUT.html is missing, the file that the page goes to\n"
    );
}
