//! Answers and explorations agree on random small charts, for a bounded time, and on the charts
//! with known answers.

use charts::random::Random;
use explore::compare::{compare, Bounds, Tally};
use reference::chart::Construct;
use reference::known::*;
use reference::refusals::decode_checked;
use std::io::Write;
use std::time::{Duration, Instant};

/// Prints a line past the test harness, which keeps the output of a test that passes.
fn report(line: &str) {
    writeln!(std::io::stderr(), "{line}").expect("standard error is open");
}

/// Compares the charts of rising seeds until the time is over.
fn agree(threads: &[u16], first_seed: u64, time: Duration) -> Tally {
    let start = Instant::now();
    let mut tally = Tally::default();
    let mut seed = first_seed;
    while start.elapsed() < time {
        let bytes = charts::small(&mut Random::new(seed));
        let bounds = Bounds {
            threads,
            first_encounters: 2 + (seed % 2) as u8,
            most_encounters: 4,
            most_states: 150_000,
        };
        let chart = decode_checked(&bytes).expect("a valid chart");
        if let Err(mismatch) = compare(&chart, &bounds, None, &mut tally) {
            panic!("seed {seed}: {mismatch:?}\nchart {bytes:02X?}");
        }
        seed += 1;
    }
    let Tally {
        charts,
        inner,
        answers,
        skipped,
    } = tally;
    let pairs: usize = answers.iter().sum();
    report(&format!(
        "threads {threads:?}, seeds {first_seed} to {}: {charts} regions, {inner} of them inner, {pairs} pairs \
         agree (answers 0 to 7: {answers:?}); {skipped} explorations skipped",
        seed - 1
    ));
    tally
}

#[test]
fn teams_of_two_agree() {
    let tally = agree(&[0, 1], 1_000_000, Duration::from_secs(8));
    assert!(tally.charts > 200 && tally.skipped * 10 < tally.charts);
}

#[test]
fn teams_of_three_agree() {
    let tally = agree(&[0, 1, 2], 2_000_000, Duration::from_secs(12));
    assert!(tally.charts > 50);
}

#[test]
#[ignore = "ten minutes"]
fn teams_agree_for_long() {
    agree(&[0, 1], 10_000_000, Duration::from_secs(300));
    agree(&[0, 1, 2], 20_000_000, Duration::from_secs(300));
}

#[test]
fn known_charts_agree() {
    let single = Construct::SINGLE;
    let charts = [
        chart_k(),
        chart_s(single, &[]),
        chart_s(single, &[(3, 1)]),
        chart_s(Construct::MASTER, &[(3, 1)]),
        chart_s(Construct::CRITICAL, &[]),
        chart_s_through_barrier(),
        chart_d(&[]),
        chart_d(&[(5, 1)]),
        chart_x(&[]),
        chart_x(&[(1, 7)]),
        chart_x(&[(7, 1)]),
        chart_y([1, 2], &[]),
        chart_y([1, 1], &[(6, 1)]),
        figure_2b(),
        row(2, 2),
    ];
    for (index, bytes) in charts.iter().enumerate() {
        for threads in 2..=3 {
            let bounds = Bounds {
                threads: &[0, 1, 2][..threads],
                first_encounters: 3,
                most_encounters: 4,
                most_states: 500_000,
            };
            let mut tally = Tally::default();
            let chart = decode_checked(bytes).unwrap();
            let compared = compare(&chart, &bounds, None, &mut tally);
            assert!(compared.is_ok(), "chart {index}: {compared:?}");
            assert_eq!(tally.skipped, 0, "chart {index}");
        }
    }
}
