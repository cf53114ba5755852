//! Reader and library agree: a table is taken exactly when its chart is admitted, and whatever the bytes are
//! the reader answers, with a row for what is wrong.

use charts::random::Random;
use region::{load, Chart, Construct, ConstructKind, NodeKind, Table};

const GAME: &str = include_str!("tables/game.csv");

/// Whether a table says all that the chart has: a construct has one begin and one end, a name only where it
/// is a critical and a filter only where it is a master, numbers name something, and edges rise.
fn is_sayable(chart: &Chart) -> bool {
    let framed = |kind: NodeKind, own: u8| {
        let frames = |x: &&region::Node| x.kind == kind && x.construct == Some(own);
        chart.nodes.iter().filter(frames).count() == 1
    };
    let plain = |x: &Construct| {
        (x.kind == ConstructKind::Critical || x.name == 0)
            && (x.kind == ConstructKind::Master || x.filter == 0)
    };
    let count = chart.constructs.len() as u8;
    let known = |x: Option<u8>| x.is_none_or(|x| x < count);
    (0..count).all(|x| framed(NodeKind::Begin, x) && framed(NodeKind::End, x))
        && chart.constructs.iter().all(|x| plain(x) && known(x.parent))
        && chart.nodes.iter().all(|x| known(x.construct))
        && chart
            .edges
            .iter()
            .all(|x| usize::from(x.0.max(x.1)) < chart.nodes.len())
        && chart.edges.is_sorted_by(|x, y| x < y)
}

/// Whether both agree about a chart that a table can say, which it must not be if it is admitted.
fn assert_agreement(chart: &Chart) -> Option<bool> {
    let bytes = chart.encode();
    let admitted = bohrali::admit(&bytes);
    if !is_sayable(chart) {
        assert!(admitted.is_err(), "{chart:?}");
        return None;
    }
    let text = Table::of(chart.clone()).write();
    match (Table::read(text.as_bytes()), admitted) {
        (Ok(table), Ok(_)) => assert_eq!(table.chart.encode(), bytes),
        (Err(wrong), Err(refusal)) => {
            assert!(
                wrong.problems.iter().all(|x| x.row.is_some()),
                "{wrong}\n{text}"
            );
            // What the cells and the constructs say is found out before there is a chart.
            assert!(
                wrong.refusal.is_none_or(|x| x == refusal),
                "{wrong}\n{text}"
            );
        }
        (read, admitted) => panic!("{read:?} {admitted:?}\n{text}"),
    }
    Some(admitted.is_ok())
}

/// A chart with one to three of its records changed.
fn changed(random: &mut Random, chart: &Chart) -> Chart {
    let mut chart = chart.clone();
    for _ in 0..random.between(1, 3) {
        match random.below(20) {
            0..7 => {
                let nodes = chart.nodes.len();
                chart
                    .edges
                    .push((random.below(nodes) as u8, random.below(nodes) as u8));
            }
            7..10 => {
                let at = random.below(chart.edges.len());
                if chart.edges.len() > 1 {
                    chart.edges.remove(at);
                }
            }
            10..15 => change_construct(random, &mut chart),
            _ => change_node(random, &mut chart),
        }
    }
    chart.edges.sort_unstable();
    chart.edges.dedup();
    chart
}

fn any_construct(random: &mut Random, chart: &Chart) -> Option<u8> {
    let below = random.below(chart.constructs.len() + 1);
    (below < chart.constructs.len()).then_some(below as u8)
}

fn change_construct(random: &mut Random, chart: &mut Chart) {
    let (Some(own), parent) = (any_construct(random, chart), any_construct(random, chart)) else {
        return;
    };
    let construct = &mut chart.constructs[usize::from(own)];
    match random.below(3) {
        0 => construct.parent = parent,
        _ => construct.kind = random.pick(&region::chart::CONSTRUCT_KINDS),
    }
    let is_critical = construct.kind == ConstructKind::Critical;
    let is_master = construct.kind == ConstructKind::Master;
    construct.name = if is_critical {
        random.pick(&[0, 0, 1, 7])
    } else {
        0
    };
    construct.filter = if is_master {
        random.pick(&[0, 1, 5, 65_535])
    } else {
        0
    };
}

fn change_node(random: &mut Random, chart: &mut Chart) {
    let construct = any_construct(random, chart);
    let at = random.below(chart.nodes.len());
    let node = &mut chart.nodes[at];
    if matches!(node.kind, NodeKind::Plain | NodeKind::Barrier) {
        node.kind = random.pick(&[NodeKind::Plain, NodeKind::Plain, NodeKind::Barrier]);
        node.construct = construct;
    }
    node.tag = random.pick(&[0, 0, 65_535]);
}

/// How many charts a table can say, and how many of these are admitted, of so many changed ones.
fn mutated_charts(seed: u64, count: usize) -> (usize, usize) {
    let mut random = Random::new(seed);
    let (mut said, mut admitted) = (0, 0);
    let mut tried = 0;
    while tried < count {
        let (_, drawn) = charts::draw(&mut random);
        let Some(chart) = Chart::decode(&drawn) else {
            continue;
        };
        for chart in [chart.clone(), changed(&mut random, &chart)] {
            tried += 1;
            if let Some(is_admitted) = assert_agreement(&chart) {
                said += 1;
                admitted += usize::from(is_admitted);
            }
        }
    }
    (said, admitted)
}

#[test]
fn reader_and_library_agree_on_changed_charts() {
    let (said, admitted) = mutated_charts(1, 20_000);
    assert!(said > 10_000 && admitted > 5000, "{said} {admitted}");
}

/// The long form: `cargo test --release -p region --test agreement -- --ignored --nocapture`.
#[test]
#[ignore = "minutes"]
fn reader_and_library_agree_on_many_changed_charts() {
    let (said, admitted) = mutated_charts(2, 200_000);
    println!("{said} changed charts that a table can say, {admitted} admitted: reader and library agree on all");
    assert!(said > 100_000);
}

const KINDS: [&str; 15] = [
    "plain",
    "barrier",
    "single",
    "master",
    "masked 2",
    "critical a",
    "critical",
    "do",
    "ordered",
    "sections",
    "section",
    "parallel",
    "end",
    "for",
    "x",
];

/// A table with one to three of its cells changed.
fn changed_table(random: &mut Random) -> String {
    let mut rows: Vec<Vec<String>> = GAME
        .lines()
        .map(|x| x.split(',').map(String::from).collect())
        .collect();
    for _ in 0..random.between(1, 3) {
        let row = random.between(1, rows.len() - 1);
        let column = random.pick(&[0, 1, 2, 3, 4, 4]);
        rows[row][column] = match column {
            0 => random.pick(&["", "x", "7"]).into(),
            1 => random.pick(&KINDS).into(),
            2 | 3 if random.percent(30) => String::new(),
            2 | 3 => random.below(13).to_string(),
            _ => {
                let count = random.between(0, 2);
                let next: Vec<String> = (0..count).map(|_| random.below(42).to_string()).collect();
                next.join(" ")
            }
        };
    }
    let rows: Vec<String> = rows.iter().map(|x| x.join(",")).collect();
    rows.join("\n")
}

#[test]
fn changed_tables_are_taken_or_told_by_row() {
    let mut random = Random::new(3);
    let (mut taken, mut refused) = (0, 0);
    for _ in 0..30_000 {
        let text = changed_table(&mut random);
        match Table::read(text.as_bytes()) {
            Ok(table) => {
                taken += 1;
                assert!(bohrali::admit(&table.chart.encode()).is_ok());
                assert_eq!(Table::read(table.write().as_bytes()), Ok(table));
            }
            Err(wrong) => {
                refused += 1;
                assert!(
                    wrong.problems.iter().all(|x| x.row.is_some()),
                    "{wrong}\n{text}"
                );
            }
        }
    }
    assert!(taken > 300 && refused > 10_000, "{taken} {refused}");
}

/// Bytes of any sort: the reader answers, and what it takes is admitted.
#[test]
fn any_bytes_are_answered() {
    let mut random = Random::new(4);
    let listing = charts::listings::any(&mut random);
    let chart = charts::small(&mut random);
    for turn in 0..30_000 {
        let mut bytes = match turn % 4 {
            0 => listing.clone(),
            1 => chart.clone(),
            _ => GAME.as_bytes().to_vec(),
        };
        for _ in 0..random.between(1, 6) {
            let at = random.below(bytes.len());
            match random.below(4) {
                0 => bytes.truncate(at + 1),
                1 => bytes.insert(at, random.pick(b",;\t\"\r\n \0=x0123456789")),
                2 => bytes[at] = random.byte(),
                _ => bytes[at] = random.pick(b",;\t\"\r\n {}sSbl"),
            }
        }
        if let Ok(loaded) = load::region(&bytes) {
            assert!(bohrali::admit(&loaded.bytes).is_ok());
        }
        if let Ok(text) = region::tidy(&bytes) {
            assert_eq!(region::tidy(text.as_bytes()), Ok(text.clone()), "{text}");
        }
    }
}
