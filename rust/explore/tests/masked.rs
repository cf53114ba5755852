//! The team rule of masked constructs (02, Note 5): runs that it allows and forbids, whole teams from
//! one thread to two past the filters, and filters that no small team has.

use charts::random::Random;
use charts::valid::{valid, Shape, FAR_FILTERS, NEAR_FILTERS};
use explore::compare::{compare, Bounds, Tally};
use explore::fault::Fault;
use explore::masked::large_enough;
use explore::search::met;
use explore::team::Team;
use explore::trace::forbidden;
use reference::chart::{Chart, Construct};
use reference::known::{chart_s, chart_y};
use reference::refusals::decode_checked;
use std::io::Write;
use std::time::{Duration, Instant};

/// The numbers of the largest team that is explored.
const NUMBERS: [u16; 4] = [0, 1, 2, 3];

/// Chart Y: a masked construct from 1 to 3 around 2, another from 4 to 6 around 5.
fn y(filters: [u16; 2]) -> Chart {
    decode_checked(&chart_y(filters, &[])).expect("chart Y")
}

/// What threads of some numbers do on chart Y: all go to node 1, then take steps, each of a thread, by
/// its place, to a node. Gives the first step that is forbidden.
fn refused(
    filters: [u16; 2],
    numbers: &[u16],
    fault: Option<Fault>,
    steps: &[(usize, u8)],
) -> Option<usize> {
    let mut trace = vec![vec![1; numbers.len()]];
    for &(thread, node) in steps {
        let mut after = trace[trace.len() - 1].clone();
        after[thread] = node;
        trace.push(after);
    }
    let chart = y(filters);
    let team = Team::of_numbers(&chart, numbers, 2).with_fault(fault);
    forbidden(&team, &trace).map(|entry| entry - 1)
}

#[test]
fn only_the_thread_of_that_number_goes_in() {
    for (thread, &number) in NUMBERS.iter().enumerate() {
        for filter in NUMBERS {
            let step = |node: u8| refused([filter, 0], &NUMBERS, None, &[(thread, node)]);
            let (goes_in, goes_past) = (step(2).is_none(), step(3).is_none());
            let its_own = number == filter;
            assert_eq!(
                (goes_in, goes_past),
                (its_own, !its_own),
                "{number} {filter}"
            );
        }
    }
    let enters = |fault: Option<Fault>| refused([2, 0], &NUMBERS, fault, &[(1, 2)]);
    assert_eq!(enters(None), Some(0));
    assert_eq!(enters(Some(Fault::AnyThreadEnters)), None);
    let skips = |fault: Option<Fault>| refused([2, 0], &NUMBERS, fault, &[(2, 3)]);
    assert_eq!(skips(None), Some(0));
    assert_eq!(skips(Some(Fault::MaskedSkipped)), None);
}

/// A number is compared whole: 256 is not 0, 65,535 is not 255.
#[test]
fn numbers_of_two_bytes() {
    let numbers = [0, 255, 256, 65_535];
    for (thread, number) in numbers.into_iter().enumerate() {
        for filter in numbers {
            let enters = refused([filter, 1], &numbers, None, &[(thread, 2)]);
            assert_eq!(enters.is_none(), number == filter, "{number} {filter}");
        }
    }
}

#[test]
fn two_filters_let_two_threads_in() {
    let both = [(1, 2), (2, 3), (2, 4), (2, 5)];
    assert_eq!(refused([1, 2], &NUMBERS[..3], None, &both), None);
    assert_eq!(refused([1, 1], &NUMBERS[..3], None, &both), Some(3));
    let same = [(1, 2), (1, 3), (1, 4), (1, 5), (1, 6), (1, 7)];
    assert_eq!(refused([1, 1], &NUMBERS[..3], None, &same), None);
}

/// Nobody goes in, and the run finishes.
#[test]
fn teams_smaller_than_a_filter_go_past() {
    for (filters, threads) in [([3, 3], 3), ([2, 3], 2), ([65_535, 256], 4), ([1, 2], 1)] {
        let chart = y(filters);
        let met = met(&Team::new(&chart, threads, 2), 100_000).expect("few states");
        let finish = chart.finish;
        let waited = met[finish] >> finish & 1 == 1;
        assert_eq!(waited, threads > 1, "{filters:?}: the run finishes");
        assert_eq!((met[2], met[5]), (0, 0), "{filters:?}");
        let past: Vec<(usize, u8)> = [3, 4, 6, 7]
            .into_iter()
            .flat_map(|node| (0..threads).map(move |thread| (thread, node)))
            .collect();
        assert_eq!(refused(filters, &NUMBERS[..threads], None, &past), None);
    }
}

/// Edition 1's masters are those of filter 0: thread 0 goes in, and must.
#[test]
fn masters_of_edition_1() {
    let chart = decode_checked(&chart_s(Construct::MASTER, &[])).unwrap();
    let team = Team::new(&chart, 2, 2);
    let steps = |places: [u8; 2]| forbidden(&team, &[vec![1, 1], places.to_vec()]);
    assert_eq!(steps([2, 1]), None);
    assert_eq!(steps([3, 1]), Some(1));
    assert_eq!(steps([1, 2]), Some(1));
    assert_eq!(steps([1, 3]), None);
}

/// Compares charts of rising seeds for some time; the numbers of a chart's threads come from `numbers`.
fn agree(
    filters: &'static [u16],
    time: Duration,
    numbers: impl Fn(&Chart, u64) -> Option<Vec<u16>>,
) -> Tally {
    let start = Instant::now();
    let mut tally = Tally::default();
    for seed in 3_000_000.. {
        if start.elapsed() > time {
            break;
        }
        let mut random = Random::new(seed);
        let shape = Shape::masked(&mut random, filters);
        let bytes = valid(&mut random, &shape).bytes();
        let chart = decode_checked(&bytes).expect("a valid chart");
        let Some(threads) = numbers(&chart, seed) else {
            continue;
        };
        let bounds = Bounds {
            threads: &threads,
            first_encounters: 2,
            most_encounters: 4,
            most_states: 40_000,
        };
        if let Err(mismatch) = compare(&chart, &bounds, None, &mut tally) {
            panic!("seed {seed}, {threads:?}: {mismatch:?}\nchart {bytes:02X?}");
        }
    }
    writeln!(std::io::stderr(), "filters {filters:?}: {tally:?}").expect("standard error is open");
    tally
}

/// Whole teams of one thread to two past the filters: each size has the answers for just that size.
#[test]
fn teams_up_to_two_past_the_filters_agree() {
    let whole = |_: &Chart, seed: u64| Some(NUMBERS[..1 + seed as usize % 4].to_vec());
    let tally = agree(NEAR_FILTERS, Duration::from_secs(3), whole);
    let [.., alone, missing] = tally.answers;
    assert!(alone > 20 && missing > 20, "{tally:?}");
    assert!(tally.charts > 100 && tally.answers[2] > 100, "{tally:?}");
}

/// Threads of the filters' numbers in teams of up to 65,536.
#[test]
fn large_teams_agree() {
    let tally = agree(FAR_FILTERS, Duration::from_secs(3), |chart, _| {
        large_enough(chart)
    });
    assert!(tally.charts > 100, "{tally:?}");
    assert!(tally.answers[2] > 100, "{tally:?}");
}
