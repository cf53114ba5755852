//! What it brings to find all nodes' first edges ahead: the search from all barriers with them, and with
//! each looked up when the search comes to its node.

use crate::timing::{least, lower, ROUNDS};
use charts::benchmark;
use reference::refusals::decode_checked;
use std::hint::black_box;
use tuned::first_edges::Searched;

/// The nodes of the charts that a build server checks most (02, Note 3).
const NODES: usize = 192;

/// Nanoseconds of the search, with places found ahead and with places looked up.
type Times = [f64; 2];

/// Measures the search on the charts of the benchmark with so many nodes and prints a table.
pub fn print() {
    let full = |chart: &[u8]| decode_checked(chart).is_ok_and(|chart| chart.nodes.len() == NODES);
    let mut charts: Vec<_> = benchmark::all().into();
    charts.retain(|(_, chart)| full(chart));
    let mut times = vec![[f64::INFINITY; 2]; charts.len()];
    for _ in 0..ROUNDS {
        for ((_, chart), times) in charts.iter().zip(&mut times) {
            lower(times, measure(chart));
        }
    }
    println!();
    println!(
        "| {:<34} | First edges found ahead, us | Looked up, us | Ratio |",
        "Chart"
    );
    println!("|---|---|---|---|");
    for ((name, _), [ahead, looked_up]) in charts.iter().zip(&times) {
        println!(
            "| {name:<34} | {:27.2} | {:13.2} | {:5.2} |",
            ahead / 1e3,
            looked_up / 1e3,
            ahead / looked_up
        );
    }
}

fn measure(chart: &[u8]) -> Times {
    let searched = Searched::of(chart).expect("an admitted chart");
    let mut levels = [0; 256];
    least([true; 2], |index| {
        let searched = black_box(&searched);
        match index {
            0 => searched.found_ahead(&mut levels),
            _ => searched.looked_up(&mut levels),
        }
        levels[NODES / 2].into()
    })
}
