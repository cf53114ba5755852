//! Charts for the other tests, and what the library says of them.

use bohrali::limits::MOST_NODES;
use bohrali::{Answer, Region, Size};
use charts::random::Random;
use charts::valid::{valid, Shape, FAR_FILTERS, NEAR_FILTERS};
use region::Chart;
use witness::view::View;

/// A chart out of all kinds that are drawn, one in ten of any size up to the limits.
pub fn drawn(random: &mut Random) -> Vec<u8> {
    let shape = match random.below(20) {
        0..2 => Shape::large(random),
        2..5 => Shape::nested(random),
        5..8 => Shape::locked(random),
        8..11 => Shape::masked(random, NEAR_FILTERS),
        11 => Shape::masked(random, FAR_FILTERS),
        _ => Shape::small(random),
    };
    valid(random, &shape).bytes()
}

/// A chart of the folder charts.
pub fn file(name: &str) -> Vec<u8> {
    let path = format!("{}/../../charts/{name}.chart", env!("CARGO_MANIFEST_DIR"));
    std::fs::read(&path).unwrap_or_else(|error| panic!("{path}: {error}"))
}

/// The charts of that folder.
pub fn files() -> Vec<Vec<u8>> {
    let folder = concat!(env!("CARGO_MANIFEST_DIR"), "/../../charts");
    let entries = std::fs::read_dir(folder).expect("the folder of charts");
    let paths = entries.map(|x| x.expect("an entry").path());
    let charts = paths.filter(|path| path.extension().is_some_and(|x| x == "chart"));
    charts
        .map(|path| std::fs::read(path).expect("a chart"))
        .collect()
}

pub fn regions(chart: &[u8]) -> Vec<Region> {
    let chart = Chart::decode(chart).expect("an admitted chart");
    chart.regions().collect()
}

/// The answers of the library for all pairs of nodes that are no barriers.
pub fn answers(view: &View, size: Option<Size>) -> Vec<(usize, usize, Answer)> {
    let mut sheet = vec![0; MOST_NODES * MOST_NODES];
    let written = match size {
        None => bohrali::sheet(view.bytes, view.region, &mut sheet),
        Some(size) => bohrali::sheet_sized(view.bytes, view.region, size, &mut sheet),
    };
    sheet.truncate(written.expect("an admitted chart"));
    let nodes = view.nodes();
    let pairs = (0..sheet.len()).map(|pair| (pair / nodes, pair % nodes, sheet[pair]));
    pairs
        .filter_map(|(a, b, byte)| Some((a, b, *Answer::ALL.get(usize::from(byte))?)))
        .collect()
}
