//! Every pair answered 0 has a certified run, and no never has one.

use crate::generated::{answers, drawn, files, regions};
use bohrali::{Answer, Size};
use charts::random::Random;
use std::io::Write;
use std::time::{Duration, Instant};
use witness::plan::Planner;
use witness::view::View;
use witness::{Witness, Witnesses};

const SEED: u64 = 2_026_111_736;
/// What was tried, and how long runs and their making take.
#[derive(Default)]
struct Tally {
    /// Of a region with more pairs so many are drawn.
    pairs: usize,
    charts: usize,
    runs: usize,
    nevers: usize,
    larger: usize,
    /// Runs that break a lock: of one name around both nodes, and others.
    unlocked: [usize; 2],
    entries: Vec<usize>,
    times: Vec<Duration>,
}

impl Tally {
    fn chart(&mut self, chart: &[u8], random: &mut Random) {
        self.charts += 1;
        for region in regions(chart) {
            let view = View::read(chart, region).expect("a region");
            for size in [None, Some(Size(random.between(1, 8)))] {
                self.region(&view, size, random);
            }
        }
    }

    fn region(&mut self, view: &View, size: Option<Size>, random: &mut Random) {
        let answers = answers(view, size);
        let mut witnesses = Witnesses::new(view);
        let mut planner = Planner::new(view, size.map_or(3, |x| x.0));
        for &(a, b, answer) in &answers {
            if random.below(answers.len()) >= self.pairs {
                continue;
            }
            let began = Instant::now();
            let found = witnesses.witness(size, a, b);
            let place = || format!("{:?}, {size:?}, {a} {b}, {:02X?}", view.region, view.bytes);
            match (answer, found) {
                (Answer::Concurrent, Ok(Witness::Run(run))) => {
                    self.times.push(began.elapsed());
                    self.entries.push(run.trace.len());
                    self.runs += 1;
                    let apart = view.common_name(a, b).is_none();
                    self.unlocked[usize::from(apart)] += usize::from(!run.keeps_locks);
                }
                (Answer::Concurrent, Ok(Witness::LargerTeam(9..))) => self.larger += 1,
                (never, Ok(Witness::Never(rule))) if never == rule => {
                    let draft = planner.as_mut().and_then(|x| x.draft(a, b));
                    assert!(
                        draft.is_none(),
                        "{}: a run for {never:?}: {draft:?}",
                        place()
                    );
                    self.nevers += 1;
                }
                (answer, found) => panic!("{}: {answer:?}, {found:?}", place()),
            }
        }
    }

    fn report(&mut self) {
        self.times.sort_unstable();
        self.entries.sort_unstable();
        let line = format!(
            "{} charts: {} pairs answered 0, each with a certified run, and {} that need over 8 threads; {} nevers without; \
             entries: median {}, most {}; time: median {:?}, worst {:?}; locks broken: {} runs between nodes of one name, {} others",
            self.charts,
            self.runs,
            self.larger,
            self.nevers,
            self.entries[self.entries.len() / 2],
            self.entries[self.entries.len() - 1],
            self.times[self.times.len() / 2],
            self.times[self.times.len() - 1],
            self.unlocked[0],
            self.unlocked[1],
        );
        writeln!(std::io::stderr(), "{line}").expect("standard error is open");
    }
}

fn try_charts(count: usize, pairs: usize) -> Tally {
    let mut random = Random::new(SEED);
    let mut tally = Tally {
        pairs,
        ..Tally::default()
    };
    let benchmark = charts::benchmark::all().map(|(_, chart)| chart);
    for chart in files().into_iter().chain(benchmark) {
        tally.chart(&chart, &mut random);
    }
    for _ in 0..count {
        tally.chart(&drawn(&mut random), &mut random);
    }
    tally.report();
    tally
}

#[test]
fn every_pair_answered_0_has_a_certified_run() {
    try_charts(1_000, 30);
}

#[test]
#[ignore = "takes minutes"]
fn over_a_million_pairs() {
    let tally = try_charts(10_000, 300);
    assert!(tally.runs > 1_000_000);
}
