//! Runs and nevers of charts whose answers are known, by hand.

use crate::generated::file;
use bohrali::{Answer, Refusal, Region, Size};
use reference::builder::ChartBuilder;
use reference::chart::Construct;
use witness::{witness, Error, Run, Witness};

const OUTERMOST: Region = Region::Outermost;

fn run(name: &str, region: Region, size: Option<usize>, a: usize, b: usize) -> Run {
    match witness(&file(name), region, size.map(Size), a, b) {
        Ok(Witness::Run(run)) => run,
        other => panic!("{name} {a} {b}: {other:?}"),
    }
}

/// A trace by "thread:node".
fn entries(run: &Run) -> String {
    let entries = run.trace.iter();
    let texts: Vec<String> = entries
        .map(|x| format!("{}:{}", x.thread, x.node))
        .collect();
    texts.join(" ")
}

#[test]
fn a_single_that_returns_is_met_in_its_second_instance() {
    let run = run("s-single-returning", OUTERMOST, None, 2, 2);
    let expected = [0, 1, 1, 1, 0, 2, 1, 3, 1, 1, 1, 2, 0, 3, 0, 4, 1, 3, 1, 4];
    assert_eq!(run.bytes(), expected);
    assert_eq!((run.threads, run.met_after, run.at), (2, 6, [0, 1]));
    assert!(run.keeps_locks);
}

#[test]
fn a_lock_that_keeps_two_apart_is_broken() {
    let run = run("s-critical", OUTERMOST, None, 2, 2);
    assert_eq!(entries(&run), "0:1 1:1 0:2 1:2 0:3 0:4 1:3 1:4");
    assert_eq!((run.met_after, run.keeps_locks), (4, false));
}

/// Chart, region and nodes; after how many entries which threads are there; and the trace.
type Known = (
    &'static str,
    Region,
    [usize; 2],
    usize,
    [usize; 2],
    &'static str,
);

const RUNS: [Known; 7] = [
    (
        "k",
        OUTERMOST,
        [1, 3],
        7,
        [0, 1],
        "0:1 1:1 0:2 1:2 0:3 1:3 0:1 0:2 1:1 1:2 0:3 1:3 0:4 1:4",
    ),
    (
        "d",
        OUTERMOST,
        [2, 3],
        5,
        [0, 1],
        "0:1 1:1 0:2 1:2 1:3 1:4 1:5 1:6 0:3 0:4 0:5 0:6",
    ),
    (
        "x",
        OUTERMOST,
        [3, 5],
        5,
        [0, 1],
        "0:1 1:1 0:2 0:3 1:5 0:4 0:7 0:8 1:6 1:7 1:8",
    ),
    (
        "y",
        OUTERMOST,
        [2, 5],
        7,
        [1, 2],
        "0:1 1:1 2:1 1:2 2:3 2:4 2:5 1:3 1:4 1:6 1:7 2:6 2:7 0:3 0:4 0:6 0:7",
    ),
    (
        "z",
        OUTERMOST,
        [3, 3],
        6,
        [0, 1],
        "0:1 1:1 0:2 0:3 1:2 1:3 0:4 0:5 0:6 0:7 1:4 1:5 1:6 1:7",
    ),
    (
        "z",
        Region::Parallel(0),
        [2, 3],
        3,
        [0, 1],
        "0:2 1:2 1:3 0:4 0:5 1:4 1:5 0:6 1:6",
    ),
    (
        "figure-2b",
        OUTERMOST,
        [4, 8],
        8,
        [0, 1],
        "0:1 1:1 0:2 1:2 0:4 1:4 1:6 1:8 0:6 0:8 0:10 1:10 0:11 1:11 0:12 1:12",
    ),
];

#[test]
fn runs_of_the_known_charts() {
    for (name, region, [a, b], met_after, at, trace) in RUNS {
        let run = run(name, region, None, a, b);
        assert_eq!(entries(&run), trace, "{name} {a} {b}");
        assert_eq!((run.met_after, run.at), (met_after, at), "{name} {a} {b}");
        assert!(run.keeps_locks);
    }
    let large = run("y", OUTERMOST, Some(8), 2, 5);
    assert_eq!(
        (large.threads, large.trace.len(), large.at),
        (8, 42, [1, 2])
    );
}

#[test]
fn known_nevers_have_their_rule() {
    let inner = Region::Parallel(0);
    for (name, region, size, a, b, rule) in [
        ("figure-2b", OUTERMOST, None, 7, 8, Answer::NoCommonPhase),
        ("figure-2b", OUTERMOST, None, 4, 5, Answer::NoCommonPhase),
        ("s-master", OUTERMOST, None, 2, 2, Answer::Master),
        ("s-single", OUTERMOST, None, 2, 2, Answer::Single),
        ("z", inner, None, 3, 3, Answer::Single),
        ("d", OUTERMOST, None, 3, 3, Answer::Ordered),
        ("x", OUTERMOST, None, 3, 3, Answer::Section),
        ("y", OUTERMOST, Some(1), 2, 2, Answer::OneThread),
        ("y", OUTERMOST, Some(2), 2, 5, Answer::MissingThread),
    ] {
        let found = witness(&file(name), region, size.map(Size), a, b);
        assert_eq!(found, Ok(Witness::Never(rule)), "{name} {a} {b}");
    }
}

#[test]
fn teams_over_eight_are_said() {
    let found = witness(&file("y"), OUTERMOST, Some(Size(9)), 2, 5);
    assert_eq!(found, Ok(Witness::LargerTeam(9)));
    let mut chart = ChartBuilder::of_edition(2);
    chart.barrier();
    let masked = chart.masked(Construct::NONE, 8);
    chart.begin(masked);
    chart.plain(masked);
    chart.end(masked);
    chart.barrier();
    chart.row();
    let chart = chart.bytes();
    assert_eq!(
        witness(&chart, OUTERMOST, None, 1, 2),
        Ok(Witness::LargerTeam(9))
    );
    let beside = witness(&chart, OUTERMOST, None, 1, 3);
    assert!(matches!(beside, Ok(Witness::Run(run)) if run.threads == 2));
}

#[test]
fn what_the_library_refuses_is_refused() {
    let chart = file("s-single");
    let refused = |chart: &[u8], region, size, a, b| witness(chart, region, size, a, b).err();
    for (found, expected) in [
        (refused(&chart, OUTERMOST, None, 0, 1), Refusal::Numbers),
        (refused(&chart, OUTERMOST, None, 1, 5), Refusal::Numbers),
        (
            refused(&chart, OUTERMOST, None, 1 << 40, 1),
            Refusal::Numbers,
        ),
        (
            refused(&chart, Region::Parallel(0), None, 1, 1),
            Refusal::Region,
        ),
        (
            refused(&chart, OUTERMOST, Some(Size(0)), 1, 1),
            Refusal::Size,
        ),
        (
            refused(&chart, OUTERMOST, Some(Size(1025)), 1, 1),
            Refusal::Size,
        ),
        (refused(&[0; 40], OUTERMOST, None, 1, 1), Refusal::Marks),
        (refused(&[], OUTERMOST, None, 1, 1), Refusal::Short),
    ] {
        assert_eq!(found, Some(Error::Refused(expected)));
    }
}
