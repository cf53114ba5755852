//! The teams of regions inside regions (02, Note 12): where they run, what they meet, and answers that
//! agree with it in each region.

use charts::random::Random;
use charts::valid::{valid, Shape};
use explore::compare::{compare, Bounds, Tally};
use explore::fault::Fault;
use explore::regions::Readings;
use explore::search::met;
use explore::team::Team;
use explore::trace::forbidden;
use reference::chart::{Chart, Construct};
use reference::known::*;
use reference::refusals::decode_checked;
use reference::regions::OUTERMOST;
use std::io::Write;
use std::time::{Duration, Instant};

fn decoded(bytes: &[u8]) -> Chart {
    decode_checked(bytes).expect("a valid chart")
}

/// The pairs met in a region by a team of two, by the numbers of the whole chart.
fn met_in(chart: &[u8], region: u8) -> Vec<(usize, usize)> {
    let chart = decoded(chart);
    let read = chart.read_for(region);
    let met = met(&Team::new(&read.chart, 2, 3), 100_000).expect("few states");
    let place = |node: usize| read.place[node];
    let nodes = || (0..chart.nodes.len()).filter(|&x| place(x).is_some());
    let pairs = nodes().flat_map(|a| nodes().map(move |b| (a, b)));
    pairs
        .filter(|&(a, b)| {
            let (a, b) = (place(a).expect("kept"), place(b).expect("kept"));
            met[a] >> b & 1 == 1
        })
        .collect()
}

#[test]
fn a_single_excludes_the_threads_of_its_own_team() {
    let chart = chart_z(&[]);
    assert!(!met_in(&chart, 0).contains(&(3, 3)));
    assert!(met_in(&chart, OUTERMOST).contains(&(3, 3)));
    assert!(met_in(&chart, OUTERMOST).contains(&(5, 2)));
    assert!(!met_in(&chart, 0).contains(&(5, 6)), "a barrier between");
    let around = chart_t(Construct::SINGLE, &[]);
    assert!(!met_in(&around, OUTERMOST).contains(&(4, 4)));
    assert!(!met_in(&around, 1).contains(&(4, 4)));
    assert!(met_in(&around, 1).contains(&(3, 3)));
}

/// A region's team starts at its begin and is finished at its end; nothing leads on from there, but for
/// the edge that is cut away.
#[test]
fn a_region_runs_from_its_begin_to_its_end() {
    let chart = decoded(&chart_u());
    let once: Vec<Vec<u8>> = [[1, 1], [2, 1], [3, 1], [4, 1], [4, 3], [4, 4]]
        .map(|x| x.to_vec())
        .into();
    let again = [&once[..], &[vec![0, 0]]].concat();
    let refused = |fault: Option<Fault>, trace: &[Vec<u8>]| {
        let run = Readings::of(&chart, 0, fault).run;
        assert_eq!((run.nodes.len(), run.start, run.finish), (5, 0, 4));
        forbidden(&Team::new(&run, 2, 3).with_fault(fault), trace)
    };
    assert_eq!(refused(None, &once), None);
    assert_eq!(refused(None, &again), Some(6));
    assert_eq!(refused(Some(Fault::EndToBeginKept), &again), None);
}

/// No edge leads into a region's Start or out of its Finish, and every node has both.
#[test]
fn charts_as_read_are_charts() {
    for seed in 0..2_000 {
        let chart = drawn(seed);
        for region in chart.regions() {
            let read = chart.read_for(region).chart;
            let edges = read.edges.iter();
            let (start, finish) = (read.start as u8, read.finish as u8);
            assert!(edges.clone().all(|x| x.to != start && x.from != finish));
            let phases = reference::phases::Phases::of(&read);
            for node in (0..read.nodes.len()).filter(|&x| !read.is_barrier(x)) {
                let masks = (phases.starts[node], phases.ends[node]);
                assert!(masks.0 != 0 && masks.1 != 0, "seed {seed}, {region}");
            }
        }
    }
}

fn drawn(seed: u64) -> Chart {
    let mut random = Random::new(seed);
    let shape = Shape::nested(&mut random);
    decoded(&valid(&mut random, &shape).bytes())
}

fn bounds(threads: &[u16]) -> Bounds<'_> {
    Bounds {
        threads,
        first_encounters: 2,
        most_encounters: 4,
        most_states: 40_000,
    }
}

#[test]
fn known_charts_agree_in_each_region() {
    let (single, critical) = (Construct::SINGLE, Construct::CRITICAL);
    for (index, bytes) in [
        chart_z(&[]),
        chart_z(&[(6, 1), (4, 2)]),
        chart_w(),
        chart_v(),
        chart_t(single, &[]),
        chart_t(single, &[(5, 3)]),
        chart_t(single, &[(7, 1)]),
        chart_t(critical, &[(6, 2)]),
        chart_u(),
    ]
    .iter()
    .enumerate()
    {
        for threads in [&[0, 1][..], &[0, 1, 2]] {
            let mut tally = Tally::default();
            let compared = compare(&decoded(bytes), &bounds(threads), None, &mut tally);
            assert!(compared.is_ok(), "chart {index}: {compared:?}");
            assert!(tally.skipped == 0 && tally.inner > 0, "chart {index}");
        }
    }
}

#[test]
fn regions_agree() {
    let (start, time) = (Instant::now(), Duration::from_secs(4));
    let mut tally = Tally::default();
    for seed in 5_000_000.. {
        if start.elapsed() > time {
            break;
        }
        let threads = &[0, 1, 2][..2 + usize::from(seed % 4 == 0)];
        let chart = drawn(seed);
        if let Err(mismatch) = compare(&chart, &bounds(threads), None, &mut tally) {
            panic!("seed {seed}: {mismatch:?}\n{chart:?}");
        }
    }
    writeln!(std::io::stderr(), "regions: {tally:?}").expect("standard error is open");
    assert!(tally.inner > 200 && tally.skipped * 10 < tally.charts);
}
