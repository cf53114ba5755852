//! Locks that are dropped: small teams without locks share just the criticals whose bytes say so, and under the locks
//! that are left no two threads are inside criticals of one name, in finished runs or in all, as the bytes say.

use charts::locks::branching;
use charts::random::Random;
use charts::valid::{valid, Shape};
use explore::compare::Bounds;
use explore::dropped::{compare_dropped, Belied, Dropped};
use explore::fault::Fault;
use explore::masked::large_enough;
use explore::search::meetings;
use explore::team::Team;
use reference::chart::{Chart, Construct};
use reference::known::*;
use reference::refusals::decode_checked;
use std::io::Write;
use std::time::{Duration, Instant};

const CRITICAL: u8 = Construct::CRITICAL;

fn decoded(bytes: &[u8]) -> Chart {
    decode_checked(bytes).expect("a valid chart")
}

fn compare_in(
    chart: &Chart,
    threads: &[u16],
    fault: Option<Fault>,
    tally: &mut Dropped,
) -> Result<(), Belied> {
    let bounds = Bounds {
        threads,
        first_encounters: 2,
        most_encounters: 4,
        most_states: 40_000,
    };
    compare_dropped(chart, &bounds, fault, tally)
}

/// The criticals of a chart by their bytes, for teams of a size; the bytes are held to what these do.
fn compared(bytes: &[u8], size: usize) -> [usize; 3] {
    let mut tally = Dropped::default();
    let numbers = &[0, 1, 2][..size];
    let compared = compare_in(&decoded(bytes), numbers, None, &mut tally);
    assert!(compared.is_ok(), "{size}: {compared:?}");
    assert_eq!(tally.skipped, 0, "{size}");
    tally.bytes
}

#[test]
fn known_charts() {
    let inner = nested(&[(Construct::PARALLEL, 0), (CRITICAL, 0)], true).bytes();
    let around = nested(&[(CRITICAL, 0), (Construct::PARALLEL, 0)], true).bytes();
    for size in [2, 3] {
        assert_eq!(compared(&chart_l(), size), [1, 0, 1]);
        assert_eq!(compared(&chart_m(), size), [0, 2, 0]);
        assert_eq!(compared(&chart_s(CRITICAL, &[(3, 1)]), size), [1, 0, 0]);
        assert_eq!(compared(&inner, size), [1, 0, 0]);
        assert_eq!(compared(&around, size), [1, 0, 0]);
    }
    assert_eq!(compared(&chart_l(), 1), [0, 0, 2]);
    assert_eq!(compared(&chart_m(), 1), [0, 0, 2]);
}

/// A lock of which the byte is 0 need not be missed: an outer critical of another name parts the threads, too.
#[test]
fn an_outer_lock_parts_the_threads() {
    let bytes = nested(&[(CRITICAL, 1), (CRITICAL, 2)], true).bytes();
    assert_eq!(compared(&bytes, 2), [2, 0, 0]);
    let chart = decoded(&bytes);
    let met = |locks: u8| {
        let team = Team::new(&chart, 2, 2).with_locks_of(locks);
        meetings(&team, 10_000).expect("few states").all[3] >> 3 & 1 == 1
    };
    assert_eq!(
        [0b00, 0b01, 0b10, 0b11].map(met),
        [true, false, false, false]
    );
}

/// A chart with criticals, and the numbers of the threads that it is asked with: a whole team, or those that suffice for
/// teams of any size.
fn drawn(seed: u64) -> (Chart, Vec<u16>) {
    let mut random = Random::new(seed);
    let chart = match random.percent(30) {
        true => branching(&mut random, 2),
        false => {
            let shape = Shape::locked(&mut random);
            valid(&mut random, &shape)
        }
    };
    let chart = decoded(&chart.bytes());
    let whole = (0..1 + random.below(3) as u16).collect();
    let numbers = match random.percent(50) {
        true => large_enough(&chart).unwrap_or(whole),
        false => whole,
    };
    (chart, numbers)
}

/// Compares the charts of rising seeds until the time is over.
fn compare_drawn(first_seed: u64, time: Duration) -> Dropped {
    let start = Instant::now();
    let mut tally = Dropped::default();
    for seed in first_seed.. {
        if start.elapsed() > time {
            break;
        }
        let (chart, numbers) = drawn(seed);
        if let Err(belied) = compare_in(&chart, &numbers, None, &mut tally) {
            panic!("seed {seed}, threads {numbers:?}: {belied:?}\n{chart:?}");
        }
    }
    writeln!(std::io::stderr(), "dropped: {tally:?}").expect("standard error is open");
    tally
}

#[test]
fn drawn_charts() {
    let tally = compare_drawn(14_000_000, Duration::from_secs(5));
    assert!(tally.bytes.iter().all(|&times| times > 100), "{tally:?}");
    assert!(tally.sets > 1_000 && tally.skipped * 10 < tally.charts);
}

#[test]
#[ignore = "five minutes"]
fn drawn_charts_for_long() {
    compare_drawn(140_000_000, Duration::from_secs(300));
}

#[test]
fn faults_are_noticed() {
    for fault in Fault::DROPPED.into_iter().chain(Fault::LOCKS) {
        let agree = |seed: u64, fault: Option<Fault>| {
            let (chart, numbers) = drawn(seed);
            compare_in(&chart, &numbers, fault, &mut Dropped::default()).is_ok()
        };
        let noticed = (1..=2_000).find(|&seed| !agree(seed, Some(fault)));
        let seed = noticed.unwrap_or_else(|| panic!("{fault:?} is not noticed"));
        assert!(agree(seed, None), "seed {seed} without a fault");
        let line = format!("{fault:?}: noticed at seed {seed}, counted from 1");
        writeln!(std::io::stderr(), "{line}").expect("standard error is open");
    }
}
