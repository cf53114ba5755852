//! How long it takes to make a run.

use crate::generated::answers;
use bohrali::{Answer, Region};
use charts::random::Random;
use std::io::Write;
use std::time::{Duration, Instant};
use witness::plan::{chosen, Planner};
use witness::run::MOST_THREADS;
use witness::view::View;

/// Each with a view and a planner of its own, as for one question; of three times the least.
fn time(chart: &[u8], threads: Option<usize>, a: usize, b: usize) -> Duration {
    let times = (0..3).map(|_| {
        let began = Instant::now();
        let view = View::read(chart, Region::Outermost).expect("a region");
        let threads = threads.unwrap_or_else(|| chosen(&view, a, b).1);
        let draft = Planner::new(&view, threads).and_then(|mut x| x.draft(a, b));
        assert!(draft.is_some(), "{threads} threads, {a} {b}");
        began.elapsed()
    });
    times.min().expect("three times")
}

#[test]
#[ignore = "measures"]
fn of_one_question_on_large_charts() {
    let mut random = Random::new(2_026_111_739);
    let benchmark = charts::benchmark::all().map(|(_, chart)| chart);
    let drawn = (0..60).map(|_| charts::large(&mut random));
    let charts: Vec<Vec<u8>> = benchmark.into_iter().chain(drawn).collect();
    let mut times = Vec::new();
    for chart in &charts {
        let view = View::read(chart, Region::Outermost).expect("a chart");
        let answers = answers(&view, None).into_iter();
        let met: Vec<_> = answers
            .filter(|x| x.2 == Answer::Concurrent && chosen(&view, x.0, x.1).1 <= MOST_THREADS)
            .collect();
        for _ in 0..met.len().min(100) {
            let (a, b, _) = random.pick(&met);
            times.push((time(chart, None, a, b), chart.len(), view.nodes(), 2));
            times.push((
                time(chart, Some(MOST_THREADS), a, b),
                chart.len(),
                view.nodes(),
                8,
            ));
        }
    }
    times.sort_unstable();
    let line = format!(
        "{} runs: median {:?}, worst {:?}",
        times.len(),
        times[times.len() / 2],
        times[times.len() - 1]
    );
    writeln!(std::io::stderr(), "{line}").expect("standard error is open");
}
