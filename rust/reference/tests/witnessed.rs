//! Traces that show a meeting: finished runs alone, moments before the first entry and after any, two different
//! threads, and the refusals in their order.

use reference::chart::Construct;
use reference::known::*;
use reference::replay::{replay, Outcome};
use reference::witnessed::witnessed;

const OUTERMOST: u64 = 255;

/// Thread 0 goes into the single, thread 1 straight past it.
const SINGLE: [u8; 14] = [0, 1, 1, 1, 0, 2, 1, 3, 1, 4, 0, 3, 0, 4];

/// The pairs of nodes 1 to 3 that a trace shows, both ways round the same.
fn shown(chart: &[u8], size: u64, trace: &[u8]) -> Vec<(u64, u64)> {
    let ask = |a: u64, b: u64| witnessed(chart, OUTERMOST, size, trace, a, b);
    let pairs = (1..4).flat_map(|a| (a..4).map(move |b| (a, b)));
    pairs
        .filter(|&(a, b)| {
            let number = ask(a, b);
            assert!([0, 1].contains(&number) && ask(b, a) == number, "{a} {b}");
            number == 1
        })
        .collect()
}

#[test]
fn a_single() {
    let chart = chart_s(Construct::SINGLE, &[]);
    assert_eq!(shown(&chart, 2, &SINGLE), [(1, 1), (1, 2), (2, 3)]);
    for length in (0..SINGLE.len()).step_by(2) {
        assert_eq!(shown(&chart, 2, &SINGLE[..length]), [], "unfinished");
    }
    let longer = [&SINGLE[..], &[0, 4]].concat();
    assert_eq!(shown(&chart, 2, &longer), [], "forbidden");
    for size in [1, 3, 8] {
        assert_eq!(shown(&chart, size, &SINGLE), [], "another team");
    }
    let alone = [0, 1, 0, 2, 0, 3, 0, 4];
    assert_eq!(shown(&chart, 1, &alone), [], "no two threads");
}

/// In Figure 2(b) a run meets 7 and 8, and then cannot finish.
#[test]
fn a_run_that_cannot_finish() {
    let chart = figure_2b();
    let entries = [
        [0, 1],
        [1, 1],
        [0, 2],
        [1, 2],
        [0, 4],
        [1, 4],
        [0, 6],
        [1, 6],
        [0, 7],
        [1, 8],
    ];
    let trace = entries.concat();
    let replay = replay(&chart, OUTERMOST, &trace, 2).expect("a replay");
    assert_eq!(replay.outcome, Outcome::Unfinished);
    assert!(replay.met().contains(&(7, 8)));
    assert_eq!(witnessed(&chart, OUTERMOST, 2, &trace, 7, 8), 0);
}

/// Within a region's team, by the numbers of the whole chart.
#[test]
fn an_inner_region() {
    let chart = chart_z(&[]);
    let entries = [
        [0, 2],
        [1, 2],
        [0, 3],
        [1, 4],
        [1, 5],
        [0, 4],
        [0, 5],
        [0, 6],
        [1, 6],
    ];
    let trace = entries.concat();
    assert_eq!(witnessed(&chart, 0, 2, &trace, 3, 4), 1);
    assert_eq!(witnessed(&chart, 0, 2, &trace, 3, 3), 0);
    assert_eq!(witnessed(&chart, 0, 2, &trace, 3, 5), -13, "a barrier");
    assert_eq!(witnessed(&chart, OUTERMOST, 2, &trace, 3, 4), 0);
}

/// 23, then 13 of either node, then 22.
#[test]
fn refusals_in_order() {
    let chart = chart_s(Construct::SINGLE, &[]);
    let mut broken = chart.clone();
    broken[0] = 9;
    let good = &SINGLE[..];
    let odd = &SINGLE[..13];
    for (size, trace, row) in [(2, good, None), (2, odd, Some(22)), (1, &[7], Some(22))]
        .into_iter()
        .chain([0, 9, 256, 258, 1 << 32, (1 << 32) + 2, u64::MAX].map(|x| (x, good, Some(22))))
    {
        let ask =
            |chart: &[u8], region: u64, a: u64, b: u64| witnessed(chart, region, size, trace, a, b);
        assert_eq!(ask(&chart, OUTERMOST, 1, 2), row.map_or(1, |row| -row));
        for wrong in [0, 4, 5, 255, 256, 257, u64::MAX] {
            assert_eq!(ask(&chart, OUTERMOST, wrong, 2), -13, "{wrong}");
            assert_eq!(ask(&chart, OUTERMOST, 2, wrong), -13, "{wrong}");
            assert_eq!(ask(&chart, 1, wrong, 2), -23);
        }
        assert_eq!(ask(&chart, 256, 0, 0), -23);
        assert_eq!(ask(&broken, 256, 0, 0), -5);
    }
}
