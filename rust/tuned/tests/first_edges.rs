//! The nodes' first edges: the reference's places are where each node's edges begin, and the search gives
//! the reference's distances with places found ahead and with each looked up, on drawn charts and on those
//! of the benchmark.

use charts::benchmark;
use charts::random::Random;
use reference::chart::Chart;
use reference::distances::distances;
use reference::first_edges::first_edges;
use reference::refusals::decode_checked;
use tuned::first_edges::Searched;

fn assert_places(chart: &Chart, name: &str) {
    let places = first_edges(chart);
    assert_eq!(places.len(), chart.nodes.len() + 1, "{name}");
    assert_eq!(places[0], 0, "{name}");
    assert_eq!(places.last(), Some(&chart.edges.len()), "{name}");
    for (node, place) in places.windows(2).enumerate() {
        let own = &chart.edges[place[0]..place[1]];
        let all_leave_it = own.iter().all(|edge| usize::from(edge.from) == node);
        assert!(all_leave_it, "{name}, node {node}");
    }
}

fn assert_levels(chart: &Chart, bytes: &[u8], name: &str) {
    let searched = Searched::of(bytes).expect("an admitted chart");
    let expected = distances(chart);
    // Both fill every level, whatever stood there.
    let (mut ahead, mut looked_up) = ([0; 256], [1; 256]);
    searched.found_ahead(&mut ahead);
    searched.looked_up(&mut looked_up);
    assert_eq!(ahead[..expected.len()], expected, "{name}, found ahead");
    assert_eq!(looked_up, ahead, "{name}, looked up");
}

fn assert_both(bytes: &[u8], name: &str) {
    let chart = decode_checked(bytes).expect("an admitted chart");
    assert_places(&chart, name);
    assert_levels(&chart, bytes, name);
}

#[test]
fn drawn_charts() {
    for seed in 0..20_000 {
        let chart = charts::small(&mut Random::new(seed));
        assert_both(&chart, &format!("small, seed {seed}"));
    }
    for seed in 0..2_000 {
        let chart = charts::large(&mut Random::new(seed));
        assert_both(&chart, &format!("large, seed {seed}"));
    }
}

#[test]
fn benchmark_charts() {
    for (name, chart) in benchmark::all() {
        assert_both(&chart, name);
    }
}
