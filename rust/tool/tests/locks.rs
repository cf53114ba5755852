//! Which locks can go: over regions, over files, and against the second implementation.

mod common;

use bohrali::Region;
use charts::random::Random;
use charts::valid::{valid, Shape};
use common::json::Value;
use common::{file, folder, good, refused, told};
use region::{Chart, ConstructKind};
use std::path::Path;

const HEADING: &str = "node,kind,construct,inside,next,where\n";

/// Every thread of the team opens a team of its own, in which one thread goes into the critical.
const NESTED: &str =
    "0,barrier,,,1,\n1,parallel,0,,2,\n2,single,1,0,3,\n3,critical total,2,1,4,\n4,plain,,2,5,\n\
    5,end,2,1,6,\n6,end,1,0,7,\n7,end,0,,8,\n8,barrier,,,,\n";

/// A single around a critical.
const ALONE: &str =
    "0,barrier,,,1,\n1,single,0,,2,\n2,critical NAME,1,0,3,\n3,plain,,1,4,\n4,end,1,0,5,\n\
    5,end,0,,6,\n6,barrier,,,,\n";

/// Construct, lock, pair and region of each critical.
type Told = Vec<(u64, String, Vec<u64>, Option<u64>)>;

fn locks(words: &[&str]) -> Told {
    let words = [&["locks", "--json"], words].concat();
    let document = Value::read(&good(&words));
    let each = |x: &Value| {
        let pair = match x.get("pair") {
            Value::Null => Vec::new(),
            pair => pair.items().iter().map(Value::number).collect(),
        };
        let region = match x.get("region") {
            Value::Null => None,
            region => Some(region.number()),
        };
        (
            x.get("construct").number(),
            x.get("lock").text().into(),
            pair,
            region,
        )
    };
    document.get("criticals").items().iter().map(each).collect()
}

fn can_go(construct: u64) -> (u64, String, Vec<u64>, Option<u64>) {
    (construct, "can go".into(), Vec::new(), None)
}

fn needed(
    construct: u64,
    pair: &[u64],
    region: Option<u64>,
) -> (u64, String, Vec<u64>, Option<u64>) {
    (construct, "needed".into(), pair.to_vec(), region)
}

#[test]
fn a_never_in_the_inner_region_is_not_enough() {
    let folder = folder("locks-nested");
    let nested = file(&folder, "nested.csv", format!("{HEADING}{NESTED}"));
    let inner = ["pair", "--json", &nested, "4", "4", "--region", "0"];
    assert_eq!(Value::read(&good(&inner)).get("answer").number(), 3);
    assert_eq!(locks(&[&nested]), [needed(2, &[4, 4], Some(255))]);
    assert_eq!(locks(&[&nested, "--size", "1"]), [can_go(2)]);
    assert_eq!(
        locks(&[&nested, "--size", "1", "--region", "0"]),
        [needed(2, &[4, 4], Some(255))]
    );
}

#[test]
fn regions_inside_a_critical_do_not_count() {
    let folder = folder("locks-inside");
    let rows = "0,barrier,,,1,\n1,single,0,,2,\n2,critical a,1,0,3,\n3,parallel,2,1,4,\n4,plain,,2,5,\n5,end,2,1,6,\n\
        6,end,1,0,7,\n7,end,0,,8,\n8,barrier,,,,\n";
    let table = file(&folder, "inside.csv", format!("{HEADING}{rows}"));
    assert_eq!(locks(&[&table]), [can_go(1)]);
}

#[test]
fn a_critical_with_one_of_its_name_around_it_keeps_its_lock() {
    let folder = folder("locks-around");
    let rows = "0,barrier,,,1,\n1,single,0,,2,\n2,critical a,1,0,3,\n3,parallel,2,1,4,\n4,single,3,2,5,\n\
        5,critical NAME,4,3,6,\n6,plain,,4,7,\n7,end,4,3,8,\n8,end,3,2,9,\n9,end,2,1,10,\n10,end,1,0,11,\n\
        11,end,0,,12,\n12,barrier,,,,\n";
    let rows = format!("{HEADING}{rows}");
    let same = file(&folder, "same.csv", rows.replace("NAME", "a"));
    let other = file(&folder, "other.csv", rows.replace("NAME", "b"));
    assert_eq!(
        locks(&[&same]),
        [needed(1, &[], None), needed(4, &[], None)]
    );
    assert_eq!(locks(&[&other]), [can_go(1), can_go(4)]);
    assert!(good(&["locks", &same]).contains("is around it or inside it"));
}

#[test]
fn criticals_of_one_name_share_their_lock() {
    let folder = folder("locks-shared");
    // One critical in a single, and behind a barrier one of its name that all threads go into.
    let rows = "0,barrier,,,1,\n1,single,0,,2,\n2,critical 7,1,0,3,\n3,plain,,1,4,\n4,end,1,0,5,\n5,end,0,,6,\n\
        6,barrier,,,7,\n7,critical 7,2,,8,\n8,plain,,2,9,\n9,end,2,,10,\n10,barrier,,,,\n";
    let parted = file(&folder, "parted.csv", format!("{HEADING}{rows}"));
    assert_eq!(
        locks(&[&parted]),
        [can_go(1), needed(2, &[8, 8], Some(255))]
    );
    let together = file(
        &folder,
        "together.csv",
        format!("{HEADING}{rows}").replace("6,barrier", "6,plain"),
    );
    assert_eq!(
        locks(&[&together]),
        [needed(1, &[3, 8], Some(255)), needed(2, &[8, 3], Some(255))]
    );
}

#[test]
fn what_is_said_of_runs_that_do_not_finish() {
    let folder = folder("locks-runs");
    // Two ways to two singles, and behind each a barrier of its own: threads that part there never finish.
    let rows = "0,barrier,,,1,\n1,plain,,,2 8,\n2,single,0,,3,\n3,critical 7,1,0,4,\n4,plain,,1,5,\n5,end,1,0,6,\n\
        6,end,0,,7,\n7,barrier,,,14,\n8,single,2,,9,\n9,critical 7,3,2,10,\n10,plain,,3,11,\n11,end,3,2,12,\n\
        12,end,2,,13,\n13,barrier,,,14,\n14,barrier,,,,\n";
    let table = file(&folder, "parts.csv", format!("{HEADING}{rows}"));
    assert_eq!(locks(&[&table]), [can_go(1), can_go(3)]);
    let text = good(&["locks", &table]);
    assert_eq!(text.matches(", in runs that finish\n").count(), 2);
    assert!(text.contains("in a run that hangs"));
}

/// A file with one critical, in a single.
fn alone(folder: &Path, name: &str, critical: &str) -> String {
    let rows = ALONE.replace("critical NAME", critical);
    file(folder, name, format!("{HEADING}{rows}"))
}

#[test]
fn names_are_counted_together_over_files() {
    let folder = folder("locks-names");
    let table = |name: &str, critical: &str| alone(&folder, name, critical);
    let (one, two) = (
        table("one.csv", "critical deck"),
        table("two.csv", "critical deck"),
    );
    let (three, four) = (table("3.csv", "critical 3"), table("4.csv", "critical 3"));
    let (other, unnamed) = (
        table("other.csv", "critical scores"),
        table("unnamed.csv", "critical"),
    );
    let kept = [needed(1, &[], None), needed(1, &[], None)];
    let gone = [can_go(1), can_go(1)];
    assert_eq!(locks(&[&one, &two]), kept);
    assert_eq!(locks(&[&one, &two, "--one-team-at-a-time"]), gone);
    assert_eq!(locks(&[&one, &other]), gone);
    assert_eq!(locks(&[&one, &unnamed]), gone);
    assert_eq!(locks(&[&three, &four]), kept);
    assert_eq!(locks(&[&one, &three]), kept);
    assert_eq!(locks(&[&unnamed, &three]), gone);
}

#[test]
fn what_is_said_of_several_files() {
    let folder = folder("locks-files");
    let one = alone(&folder, "one.csv", "critical deck");
    let two = alone(&folder, "two.csv", "critical deck");
    let shared = good(&["locks", &one, &two]);
    assert!(shared.contains("two.csv has a critical that may be of the same name"));
    let apart = good(&["locks", &one, &two, "--one-team-at-a-time"]);
    assert!(apart.contains("two.csv works at the same time"));
    assert_eq!(told(&["locks", "--strict", &one]).0, 0);
    assert_eq!(told(&["locks", "--strict", &one, &two]).0, 1);
    let both = refused(&["locks", &one, "no-such.csv", "none.csv"]);
    assert_eq!(both.lines().count(), 2, "{both}");
}

/// The sheet of the second implementation.
fn reference_sheet(bytes: &[u8], region: Region) -> Vec<u8> {
    let mut out = vec![0; 192 * 192];
    let length = reference::calls::sheet(bytes, region.number() as u64, &mut out);
    out.truncate(usize::try_from(length).expect("an admitted chart"));
    out
}

/// Whether the lock of each critical can go, by the plain words: a never for all pairs, in all regions around.
fn reference_locks(bytes: &[u8]) -> Vec<(u64, bool)> {
    let chart = &Chart::decode(bytes).expect("a chart");
    let count = chart.nodes.len() as u8;
    let criticals: Vec<u8> = chart.constructs_of(ConstructKind::Critical).collect();
    let name = |x: u8| chart.constructs[usize::from(x)].name;
    let around = |x: u8, region: Region| match region {
        Region::Outermost => true,
        Region::Parallel(number) => chart.enclosing(x).any(|y| usize::from(y) == number),
    };
    let nested = |x: u8, y: u8| chart.enclosing(x).any(|z| z == y);
    let meets = |x: u8, y: u8, region: Region| {
        let sheet = reference_sheet(bytes, region);
        let inside = |c: u8| (0..count).filter(move |&v| chart.inside(v, c));
        let answer = |a: u8, b: u8| sheet[usize::from(a) * usize::from(count) + usize::from(b)];
        inside(x).any(|a| inside(y).any(|b| answer(a, b) == 0))
    };
    let is_needed = |&x: &u8| {
        let mut same = criticals.iter().filter(|&&y| name(x) == name(y));
        same.any(|&y| {
            let mut regions = chart.regions().filter(|&r| around(x, r) && around(y, r));
            nested(x, y) || nested(y, x) || regions.any(|r| meets(x, y, r))
        })
    };
    criticals
        .iter()
        .map(|x| (u64::from(*x), !is_needed(x)))
        .collect()
}

#[test]
fn verdicts_are_those_of_the_second_implementation() {
    let folder = folder("locks-reference");
    let mut random = Random::new(9);
    let (mut files, mut expected) = (Vec::new(), Vec::new());
    for turn in 0..300 {
        let shape = match turn % 2 {
            0 => Shape::locked(&mut random),
            _ => Shape::nested(&mut random),
        };
        let bytes = valid(&mut random, &shape).bytes();
        files.push(file(&folder, &format!("{turn}.chart"), &bytes));
        expected.extend(reference_locks(&bytes));
    }
    files.push("--one-team-at-a-time".into());
    let words: Vec<&str> = files.iter().map(String::as_str).collect();
    let found: Vec<(u64, bool)> = locks(&words)
        .iter()
        .map(|x| (x.0, x.1 == "can go"))
        .collect();
    assert_eq!(found, expected);
    let gone = found.iter().filter(|x| x.1).count();
    assert!(
        gone > 20 && found.len() - gone > 100,
        "{gone} of {}",
        found.len()
    );
}
