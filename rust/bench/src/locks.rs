//! Locks by the best Rust known, and by what Races takes for no access at all: the marking, and what is worked out of
//! nodes before a list is looked at.

use crate::timing::{least, lower, ROUNDS};
use bohrali::limits::MOST_CONSTRUCTS;
use bohrali::Region::Outermost;
use charts::benchmark;
use std::hint::black_box;

/// Nanoseconds of Locks by the library and by Rust, and of Races with no access by the library.
type Times = [f64; 3];

/// Measures them on the charts of the benchmark and on those with the most criticals, and prints a table.
pub fn print() {
    let charts: Vec<_> = benchmark::all()
        .into_iter()
        .chain(benchmark::criticals())
        .collect();
    let mut times = vec![[f64::INFINITY; 3]; charts.len()];
    for _ in 0..ROUNDS {
        for ((_, chart), times) in charts.iter().zip(&mut times) {
            lower(times, measure(chart));
        }
    }
    println!();
    println!(
        "| {:<34} | Locks, us | of Rust with levels | of Races with no access |",
        "Chart"
    );
    println!("|---|---|---|---|");
    for ((name, _), [locks, rust, races]) in charts.iter().zip(&times) {
        println!(
            "| {name:<34} | {:9.2} | {:19.2} | {:23.2} |",
            locks / 1e3,
            locks / rust,
            locks / races
        );
    }
}

fn measure(chart: &[u8]) -> Times {
    let mut out = [0; MOST_CONSTRUCTS];
    least([true; 3], |index| {
        let chart = black_box(chart);
        let written = match index {
            0 => bohrali::locks(chart, Outermost, &mut out).is_ok(),
            1 => tuned::locks::<true>(chart, &mut out) >= 0,
            _ => bohrali::races(chart, Outermost, &[], &mut []).is_ok(),
        };
        i64::from(written)
    })
}
