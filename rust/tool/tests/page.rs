//! The page without a browser: its data read back and held to the calls, and its size.

mod common;

use bohrali::{Answer, Region, Size};
use common::json::Value;
use common::packed;
use common::{chart, data, example, file, folder, good, page, refused, told};
use region::load;
use std::fs;
use std::path::Path;

fn regions(page: &str) -> Vec<Value> {
    data(page).get("regions").items().to_vec()
}

/// 192 nodes of which the first and the last are barriers and the others plain; each leads to these.
fn plain(next: impl Fn(usize) -> Vec<usize>) -> String {
    let row = |node: usize| {
        let kind = if [0, 191].contains(&node) {
            "barrier"
        } else {
            "plain"
        };
        let next: Vec<String> = next(node).iter().map(usize::to_string).collect();
        format!("{node},{kind},,,{},\n", next.join(" "))
    };
    let rows: String = (0..192).map(row).collect();
    format!("node,kind,construct,inside,next,where\n{rows}")
}

/// 47 constructs of two nodes in a row, of these kinds.
fn constructs(kind: impl Fn(usize) -> String) -> String {
    let row = |node: usize| {
        let (construct, next) = (node.saturating_sub(1) / 4, node + 1);
        match (node, node % 4) {
            (0, _) => format!("{node},barrier,,,{next},\n"),
            (191, _) => format!("{node},barrier,,,,\n"),
            (189.., _) => format!("{node},plain,,,{next},\n"),
            (_, 1) => format!("{node},{},{construct},,{next},\n", kind(construct)),
            (_, 0) => format!("{node},end,{construct},,{next},\n"),
            _ => format!("{node},plain,,{construct},{next},\n"),
        }
    };
    let rows: String = (0..192).map(row).collect();
    format!("node,kind,construct,inside,next,where\n{rows}")
}

#[test]
fn data_is_what_the_calls_answer() {
    let charts = ["x", "y", "z", "figure-2b", "s-single-returning", "k", "d"].map(chart);
    let mut files: Vec<&Path> = charts.iter().map(|x| x.as_path()).collect();
    let table = example().join("playtest.csv");
    files.push(&table);
    let names: Vec<&str> = files.iter().map(|x| x.to_str().expect("text")).collect();
    let regions = regions(&page("page-calls", &names));
    assert_eq!(regions.len(), files.len());
    for (path, region) in files.iter().zip(&regions) {
        let bytes = fs::read(path).expect("a region");
        let loaded = load::region(&bytes).expect("an admitted region");
        let readings = region.get("readings").items();
        assert_eq!(readings.len(), loaded.table.chart.regions().count());
        for reading in readings {
            compare(&loaded.bytes, loaded.counts.nodes, reading);
        }
    }
}

/// Holds what the page says of a region to the calls.
fn compare(chart: &[u8], nodes: usize, reading: &Value) {
    let region = Region::from(reading.get("region").number() as usize);
    let mut distances = vec![0; nodes];
    bohrali::distances(chart, region, &mut distances).expect("distances");
    let distances: Vec<usize> = distances.into_iter().map(usize::from).collect();
    assert_eq!(packed::numbers(reading.get("distances")), distances);
    let runs = packed::runs(reading);
    let sheets = packed::sheets(reading, nodes);
    assert_eq!(sheets.len(), reading.get("sheets").items().len());
    for (sheet, cells) in reading.get("sheets").items().iter().zip(sheets) {
        let size = match sheet.get("size") {
            Value::Null => None,
            size => Some(Size(size.number() as usize)),
        };
        let mut answers = vec![0; nodes * nodes];
        match size {
            None => bohrali::sheet(chart, region, &mut answers),
            Some(size) => bohrali::sheet_sized(chart, region, size, &mut answers),
        }
        .expect("a sheet");
        let kinds = reading.get("kinds").items();
        let told: Vec<u64> = cells
            .iter()
            .map(|&x| kinds[x].get("answer").number())
            .collect();
        let answers: Vec<u64> = answers.into_iter().map(u64::from).collect();
        assert_eq!(told, answers);
        for (cell, &kind) in cells.iter().enumerate() {
            let (a, b) = (cell / nodes, cell % nodes);
            shown(chart, region, size, &runs, &kinds[kind], [a, b]);
        }
    }
}

/// Each answer has words, and each 0 a run of a team of that size which the library certifies, or words that say why not.
fn shown(
    chart: &[u8],
    region: Region,
    size: Option<Size>,
    runs: &[(usize, Vec<u8>)],
    kind: &Value,
    [a, b]: [usize; 2],
) {
    let answer = kind.get("answer").number();
    let words = kind.get("words").items();
    assert_eq!(words.is_empty(), answer == u64::from(Answer::AT_BARRIER));
    if answer != Answer::Concurrent as u64 {
        return;
    }
    let certified = |(threads, trace): &(usize, Vec<u8>)| {
        let serves = size.is_none_or(|x| x.0 == *threads);
        serves && bohrali::witnessed(chart, region, Size(*threads), trace, a, b) == Ok(true)
    };
    let too_large = words
        .iter()
        .any(|x| x.text().starts_with("No run is shown"));
    let has_run = runs.iter().any(certified);
    assert!(has_run != too_large, "{a} and {b}");
}

#[test]
fn sizes_of_a_class_are_answered_alike() {
    let folder = folder("page-sizes");
    let far = "node,kind,construct,inside,next,where\n0,barrier,,,1,\n1,masked 4,0,,2,\n2,plain,,0,3,\n3,end,0,,4,\n\
               4,masked 9,1,,5,\n5,plain,,1,6,\n6,end,1,,7,\n7,barrier,,,,\n";
    let far = file(&folder, "far.csv", far);
    let y = chart("y");
    for path in [far.as_str(), y.to_str().expect("text")] {
        let loaded = load::region(&fs::read(path).expect("a file")).expect("a region");
        let nodes = loaded.counts.nodes;
        let regions = regions(&page("page-sizes-of", &[path]));
        let reading = &regions[0].get("readings").items()[0];
        let kinds = reading.get("kinds").items();
        let sheets = reading.get("sheets").items();
        let cells = packed::sheets(reading, nodes);
        for size in 1..=16 {
            let mut answers = vec![0; nodes * nodes];
            bohrali::sheet_sized(&loaded.bytes, Region::Outermost, Size(size), &mut answers)
                .expect("a sheet");
            let least = |x: &&Value| {
                *x.get("size") == Value::Null || x.get("size").number() as usize <= size
            };
            // without a class of its own, every team of two or more is answered as any
            let class = match sheets.len() {
                2 if size > 1 => 0,
                _ => sheets.iter().rposition(|x| least(&x)).expect("a class"),
            };
            let told: Vec<u8> = cells[class]
                .iter()
                .map(|&x| kinds[x].get("answer").number() as u8)
                .collect();
            assert_eq!(told, answers, "{path}, {size} threads");
        }
    }
}

#[test]
fn layers_are_what_diff_replay_and_races_tell() {
    let folder = folder("page-layers");
    let old = fs::read_to_string(example().join("playtest.csv")).expect("the table");
    let without = old.replace(
        "10,barrier,,,11,playtest.c:73 implied by single",
        "10,plain,,,11,",
    );
    assert_ne!(old, without);
    let new = file(&folder, "new.csv", without);
    let out = folder.join("page.html");
    let out = out.to_str().expect("text");
    let (status, _, notes) = told(&["page", "playtest.csv", &new, "--compare", "-o", out]);
    assert_eq!(
        (status, notes.contains("of another kind")),
        (0, true),
        "{notes}"
    );
    let compared = data(&fs::read_to_string(out).expect("the page"));
    assert_eq!(compared.get("regions").items()[0].get("file").text(), new);
    let diff = told(&["diff", "playtest.csv", &new, "--json"]).1;
    let diff = Value::read(&diff);
    let changes = compared.get("changes").items();
    let is_lost = |x: &&Value| x.get("after").number() == 0;
    let lost: Vec<Value> = changes.iter().filter(is_lost).cloned().collect();
    assert!(!lost.is_empty());
    assert_eq!(lost, diff.get("lost").items());
    assert_eq!(changes.len() - lost.len(), diff.get("gained").items().len());
    let trace = file(&folder, "part.trace", "0 1\n1 1\n0 2\n1 9\n");
    good(&["page", "playtest.csv", "--trace", &trace, "-o", out]);
    let recorded = data(&fs::read_to_string(out).expect("the page"));
    let recorded = recorded.get("recorded");
    let replayed = Value::read(&good(&["replay", "playtest.csv", &trace, "--json"]));
    assert_eq!(replayed.get("verdict").text(), "forbidden");
    assert_eq!(recorded.get("met"), replayed.get("met"));
    assert!(recorded
        .get("words")
        .text()
        .starts_with("forbidden: 4 entries"));
    let legal = packed::trace(recorded.get("run").items()[1].text().as_bytes());
    assert_eq!(legal, [0, 1, 1, 1, 0, 2]);
    let accesses = file(
        &folder,
        "accesses",
        "write 14 board\nwrite 12 order\nread 17 order\n",
    );
    good(&["page", "playtest.csv", "--accesses", &accesses, "-o", out]);
    let raced = data(&fs::read_to_string(out).expect("the page"));
    let races = Value::read(&good(&["races", "playtest.csv", &accesses, "--json"]));
    let kinds = races
        .get("races")
        .items()
        .iter()
        .map(|x| x.get("race").text());
    assert_eq!(
        kinds.collect::<Vec<_>>(),
        ["data", "data", "synchronization"]
    );
    assert_eq!(raced.get("races").get("found"), races.get("races"));
    assert_eq!(
        refused(&["page", "playtest.csv", "--compare", "-o", out]),
        "bohrali: page: --compare wants two files, OLD and NEW\n"
    );
}

/// The limit is 300,000 bytes. Every pair of the fans has a run of its own, each masked construct a team size.
#[test]
fn largest_regions_are_small_pages() {
    let folder = folder("page-size");
    let line = |node: usize| if node < 191 { vec![node + 1] } else { vec![] };
    let fan = |from: usize, node: usize| match node {
        191 => vec![],
        _ if node == from => (from + 1..191).collect(),
        _ if node > from => vec![191],
        _ => vec![node + 1],
    };
    let in_turn = |x: usize| match x % 2 {
        0 => "single".into(),
        _ => format!("masked {}", x / 2 % 8),
    };
    let tables = [
        ("line.csv", plain(line), 110_000),
        ("star.csv", plain(|x| fan(0, x)), 230_000),
        ("fan.csv", plain(|x| fan(40, x)), 230_000),
        ("masked.csv", constructs(|x| format!("masked {x}")), 250_000),
        ("singles.csv", constructs(|_| "single".into()), 160_000),
        ("turn.csv", constructs(in_turn), 190_000),
        ("parallels.csv", constructs(|_| "parallel".into()), 180_000),
    ];
    for (name, table, most) in tables {
        let table = file(&folder, name, table);
        let page = page("page-size-out", &[&table]);
        assert!(page.len() < most, "{name}: {} bytes", page.len());
    }
}
