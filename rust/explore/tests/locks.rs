//! The team rules with locks added (02, Note 9): runs that they forbid, and that no finished run has two
//! threads at a synchronization pair together. Without the rule, or with less of it, some run has.

use charts::random::Random;
use charts::valid::{valid, Shape};
use explore::compare::Bounds;
use explore::fault::Fault;
use explore::locks::{compare_locked, Locked};
use explore::search::{met, Met};
use explore::team::Team;
use explore::trace::forbidden;
use reference::builder::ChartBuilder;
use reference::chart::{Chart, Construct};
use reference::known::*;
use reference::refusals::decode_checked;
use std::io::Write;
use std::time::{Duration, Instant};

const NONE: u8 = Construct::NONE;
const CRITICAL: u8 = Construct::CRITICAL;

fn decoded(bytes: &[u8]) -> Chart {
    decode_checked(bytes).expect("a valid chart")
}

/// Two criticals side by side, from 1 to 3 around 2 and from 4 to 6 around 5: a thread takes one of them.
fn side_by_side(names: [u16; 2]) -> Chart {
    let mut chart = ChartBuilder::new();
    chart.barrier();
    for name in names {
        let critical = chart.construct(CRITICAL, NONE, name);
        chart.begin(critical);
        chart.plain(critical);
        chart.end(critical);
    }
    chart.barrier();
    for (from, to) in [(0, 1), (1, 2), (2, 3), (3, 7)] {
        chart.edge(from, to);
    }
    for (from, to) in [(0, 4), (4, 5), (5, 6), (6, 7)] {
        chart.edge(from, to);
    }
    decoded(&chart.bytes())
}

/// The first entry of a run of two threads that is forbidden, with locks and without.
fn refused(chart: &Chart, trace: &[[u8; 2]]) -> (Option<usize>, Option<usize>) {
    let trace: Vec<Vec<u8>> = trace.iter().map(|x| x.to_vec()).collect();
    let with = Team::new(chart, 2, 2).with_locks();
    let without = Team::new(chart, 2, 2);
    (forbidden(&with, &trace), forbidden(&without, &trace))
}

#[test]
fn one_thread_at_a_time() {
    let chart = decoded(&chart_s(CRITICAL, &[]));
    let together = [[1, 1], [2, 1], [2, 2]];
    assert_eq!(refused(&chart, &together), (Some(2), None));
    let in_turn = [[1, 1], [2, 1], [3, 1], [3, 2], [3, 3], [4, 3], [4, 4]];
    assert_eq!(refused(&chart, &in_turn), (None, None));
}

#[test]
fn criticals_of_one_name_and_of_two() {
    let together = [[1, 4], [2, 4], [2, 5]];
    assert_eq!(refused(&side_by_side([3, 3]), &together), (Some(2), None));
    assert_eq!(refused(&side_by_side([0, 0]), &together), (Some(2), None));
    assert_eq!(refused(&side_by_side([3, 259]), &together), (None, None));
    assert_eq!(refused(&side_by_side([0, 3]), &together), (None, None));
}

/// Inside is at any depth: a thread in a critical below holds the lock of the one above.
#[test]
fn a_lock_is_held_at_any_depth() {
    let chart = decoded(&nested(&[(CRITICAL, 1), (CRITICAL, 2)], true).bytes());
    let inside = [[1, 1], [2, 1], [3, 1], [3, 2]];
    assert_eq!(refused(&chart, &inside), (Some(3), None));
    let behind = [[1, 1], [2, 1], [3, 1], [4, 1], [5, 1], [5, 2]];
    assert_eq!(refused(&chart, &behind), (None, None));
}

fn met_with_locks(chart: &Chart, threads: usize) -> Met {
    met(&Team::new(chart, threads, 2).with_locks(), 200_000).expect("few states")
}

/// Two criticals nested in opposite order can block each other; the runs that finish go one after the other.
#[test]
fn opposite_orders_block() {
    let mut chart = ChartBuilder::new();
    chart.barrier();
    for names in [[1, 2], [2, 1]] {
        let outer = chart.construct(CRITICAL, NONE, names[0]);
        let inner = chart.construct(CRITICAL, outer, names[1]);
        for construct in [outer, inner] {
            chart.begin(construct);
        }
        chart.plain(inner);
        for construct in [inner, outer] {
            chart.end(construct);
        }
    }
    chart.barrier();
    let row = |first: usize| (first..first + 4).map(|node| (node, node + 1));
    let ends = [(0, 1), (0, 6), (5, 11), (10, 11)];
    for (from, to) in row(1).chain(row(6)).chain(ends) {
        chart.edge(from, to);
    }
    let chart = decoded(&chart.bytes());
    let blocked = [[1, 6], [2, 6], [2, 7]];
    assert_eq!(refused(&chart, &blocked), (None, None));
    let met = met_with_locks(&chart, 2);
    assert!(met[11] >> 11 & 1 == 1, "some run finishes");
    assert!(met[2] >> 7 & 1 == 0, "not from there");
    assert!(met[3] >> 8 & 1 == 0 && met[3] >> 6 & 1 == 1);
}

#[test]
fn known_charts() {
    let locked = met_with_locks(&decoded(&chart_s(CRITICAL, &[(3, 1)])), 3);
    assert!(locked[2] >> 2 & 1 == 0);
    assert!(locked[1] >> 2 & 1 == 1 && locked[1] >> 1 & 1 == 1);
    for bytes in [chart_s(CRITICAL, &[]), chart_t(CRITICAL, &[(6, 2)])] {
        let mut tally = Locked::default();
        let compared = compare_locked(&decoded(&bytes), &bounds(&[0, 1, 2]), None, &mut tally);
        assert!(compared.is_ok() && tally.races[1] > 0, "{compared:?}");
    }
}

fn bounds(threads: &[u16]) -> Bounds<'_> {
    Bounds {
        threads,
        first_encounters: 2,
        most_encounters: 2,
        most_states: 60_000,
    }
}

fn drawn(seed: u64) -> Chart {
    let mut random = Random::new(seed);
    let shape = Shape::locked(&mut random);
    decoded(&valid(&mut random, &shape).bytes())
}

#[test]
fn no_synchronization_pair_is_met() {
    let (start, time) = (Instant::now(), Duration::from_secs(5));
    let mut tally = Locked::default();
    for seed in 9_000_000.. {
        if start.elapsed() > time {
            break;
        }
        let threads = &[0, 1, 2][..2 + usize::from(seed % 3 == 0)];
        let chart = drawn(seed);
        if let Err(mismatch) = compare_locked(&chart, &bounds(threads), None, &mut tally) {
            panic!("seed {seed}: {mismatch:?}\n{chart:?}");
        }
    }
    writeln!(std::io::stderr(), "locks: {tally:?}").expect("standard error is open");
    let [_, synchronization, data] = tally.races;
    assert!(synchronization > 100 && data > 100, "{tally:?}");
    assert!(tally.met[2] * 2 > data, "{tally:?}");
}

#[test]
fn faults_of_locks_are_noticed() {
    for fault in Fault::LOCKS {
        let agree = |seed: u64, fault: Option<Fault>| {
            let tally = &mut Locked::default();
            compare_locked(&drawn(seed), &bounds(&[0, 1]), fault, tally).is_ok()
        };
        let noticed = (1..=500).find(|&seed| !agree(seed, Some(fault)));
        let seed = noticed.unwrap_or_else(|| panic!("{fault:?} is not noticed"));
        assert!(agree(seed, None), "seed {seed} without a fault");
        let line = format!("{fault:?}: noticed at seed {seed}, counted from 1");
        writeln!(std::io::stderr(), "{line}").expect("standard error is open");
    }
}
