//! Teams of just one size (02, Note 10): whole teams of one to four threads meet exactly the pairs whose
//! answer for that size is 0, in each region; planted faults of sizes are noticed.

use charts::random::Random;
use charts::valid::{valid, Shape, NEAR_FILTERS};
use explore::compare::{compare, Bounds, Mismatch, Tally};
use explore::fault::Fault;
use explore::search::met;
use explore::team::Team;
use reference::answers::Rules;
use reference::chart::{Chart, Construct};
use reference::known::*;
use reference::refusals::decode_checked;
use reference::sizes::Teams;
use std::io::Write;
use std::time::{Duration, Instant};

/// The numbers of the largest team that is explored.
const NUMBERS: [u16; 4] = [0, 1, 2, 3];

fn decoded(bytes: &[u8]) -> Chart {
    decode_checked(bytes).expect("a valid chart")
}

/// Compares the pairs of all regions of a chart with what a team of a size meets.
fn compare_sized(
    chart: &Chart,
    size: usize,
    fault: Option<Fault>,
    tally: &mut Tally,
) -> Result<(), Mismatch> {
    let bounds = Bounds {
        threads: &NUMBERS[..size],
        first_encounters: 2,
        most_encounters: 4,
        most_states: 40_000,
    };
    compare(chart, &bounds, fault, tally)
}

/// Chart Y with filters 1 and 2: the masked constructs are entered in teams of two and of three threads.
#[test]
fn chart_y_by_size() {
    let chart = decoded(&chart_y([1, 2], &[]));
    let rules = Rules::of(chart.clone());
    for (size, pairs) in [
        (1, [(2, 5, 6), (2, 2, 6), (1, 2, 6), (1, 1, 6)]),
        (2, [(2, 5, 7), (2, 2, 2), (1, 2, 0), (1, 1, 0)]),
        (3, [(2, 5, 0), (2, 2, 2), (1, 5, 0), (5, 5, 2)]),
        (4, [(2, 5, 0), (2, 2, 2), (1, 5, 0), (5, 5, 2)]),
    ] {
        let met = met(&Team::new(&chart, size, 2), 100_000).expect("few states");
        for (a, b, answer) in pairs {
            let given = rules.answer_for(Teams::Of(size as u64), a, b);
            assert_eq!(given, answer, "{size}: {a} {b}");
            let is_met = met[a] >> b & 1 == 1;
            assert_eq!(is_met, answer == 0, "{size}: {a} {b}");
        }
    }
}

#[test]
fn known_charts_agree_by_size() {
    let (single, master) = (Construct::SINGLE, Construct::MASTER);
    let charts = [
        chart_k(),
        chart_s(single, &[]),
        chart_s(single, &[(3, 1)]),
        chart_s(master, &[(3, 1)]),
        chart_d(&[]),
        chart_x(&[]),
        chart_y([0, 3], &[]),
        chart_y([2, 2], &[(6, 1)]),
        chart_y([1, 65_535], &[]),
        chart_z(&[]),
        chart_t(single, &[(7, 1)]),
    ];
    for (index, bytes) in charts.iter().enumerate() {
        for size in 1..=NUMBERS.len() {
            let mut tally = Tally::default();
            let compared = compare_sized(&decoded(bytes), size, None, &mut tally);
            assert!(compared.is_ok(), "chart {index}, {size}: {compared:?}");
            assert_eq!(tally.skipped, 0, "chart {index}, {size}");
        }
    }
}

/// A chart with masked constructs of small filters, every other one with parallels too.
fn drawn(seed: u64) -> Chart {
    let mut random = Random::new(seed);
    let shape = match seed % 2 {
        0 => Shape::masked(&mut random, NEAR_FILTERS),
        _ => Shape {
            filters: NEAR_FILTERS,
            ..Shape::nested(&mut random)
        },
    };
    decoded(&valid(&mut random, &shape).bytes())
}

/// A size from one thread to two past the largest filter.
fn size_of(seed: u64) -> usize {
    1 + (seed / 2 % 4) as usize
}

#[test]
fn drawn_charts_agree_by_size() {
    let (start, time) = (Instant::now(), Duration::from_secs(4));
    let mut tally = Tally::default();
    for seed in 6_000_000.. {
        if start.elapsed() > time {
            break;
        }
        let (chart, size) = (drawn(seed), size_of(seed));
        if let Err(mismatch) = compare_sized(&chart, size, None, &mut tally) {
            panic!("seed {seed}, size {size}: {mismatch:?}\n{chart:?}");
        }
    }
    writeln!(std::io::stderr(), "sizes: {tally:?}").expect("standard error is open");
    let [.., alone, missing] = tally.answers;
    assert!(alone > 20 && missing > 20, "{tally:?}");
    assert!(tally.inner > 20 && tally.skipped * 10 < tally.charts);
}

#[test]
fn faults_of_sizes_are_noticed() {
    for fault in Fault::SIZED {
        let agree = |seed: u64, fault: Option<Fault>| {
            compare_sized(&drawn(seed), size_of(seed), fault, &mut Tally::default()).is_ok()
        };
        let noticed = (1..=500).find(|&seed| !agree(seed, Some(fault)));
        let seed = noticed.unwrap_or_else(|| panic!("{fault:?} is not noticed"));
        assert!(agree(seed, None), "seed {seed} without a fault");
        let line = format!("{fault:?}: noticed at seed {seed}, counted from 1");
        writeln!(std::io::stderr(), "{line}").expect("standard error is open");
    }
}
