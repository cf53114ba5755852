//! The tuned calls give what the reference gives for the outermost region, with levels and without: numbers, written bytes,
//! bytes that must stay, and the levels themselves, on random charts of all kinds and on those of the
//! benchmark.

use charts::races::{accesses, wrong_accesses};
use charts::random::Random;
use charts::{benchmark, draw};
use reference::builder::ChartBuilder;
use reference::chart::Construct;
use reference::known::*;
use reference::refusals::decode_checked;
use reference::regions::{outermost, read_outermost};
use reference::{calls, races};

const FILL: u8 = 0xAA;

/// A call that writes: chart and buffer in, a number out.
type Writer = fn(&[u8], &mut [u8]) -> i64;

fn assert_writes_alike(
    chart: &[u8],
    length: usize,
    tuned: impl Fn(&[u8], &mut [u8]) -> i64,
    reference: impl Fn(&[u8], &mut [u8]) -> i64,
    seed: u64,
) {
    let (mut one, mut other) = (vec![FILL; length], vec![FILL; length]);
    assert_eq!(
        tuned(chart, &mut one),
        reference(chart, &mut other),
        "seed {seed}"
    );
    assert_eq!(one, other, "seed {seed}");
}

/// Claims of which most name nodes of the chart, and some do not.
fn claims(random: &mut Random, nodes: usize) -> Vec<u8> {
    let length = random.below(12);
    let bound = nodes + usize::from(random.percent(10));
    (0..length).map(|_| random.below(bound) as u8).collect()
}

/// Claims that are not refused: no barriers among them.
fn open_claims(random: &mut Random, chart: &[u8]) -> Vec<u8> {
    let chart = read_outermost(chart).expect("an admitted chart");
    let open: Vec<u8> = (0..chart.nodes.len())
        .filter(|&x| !chart.is_barrier(x))
        .map(|x| x as u8)
        .collect();
    let length = if open.is_empty() { 0 } else { 40 };
    (0..length).map(|_| random.pick(&open)).collect()
}

/// The calls that write, with results of all lengths around their own.
fn assert_written<const LEVELS: bool>(chart: &[u8], nodes: usize, seed: u64) {
    let constructs = decode_checked(chart).map_or(2, |chart| chart.constructs.len());
    let writers: [(usize, Writer, Writer); 4] = [
        (16 * nodes, tuned::phases::<LEVELS>, outermost::phases),
        (nodes * nodes, tuned::sheet::<LEVELS>, outermost::sheet),
        (nodes, tuned::distances, outermost::distances),
        (constructs, tuned::locks::<LEVELS>, outermost::locks),
    ];
    for (result, tuned, reference) in writers {
        for length in [0, result.saturating_sub(1), result, result + 9] {
            assert_writes_alike(chart, length, tuned, reference, seed);
        }
    }
}

/// The calls about pairs, with node numbers of all kinds.
fn assert_judged<const LEVELS: bool>(chart: &[u8], nodes: usize, seed: u64) {
    let mut random = Random::new(seed);
    let pair = |a: usize, b: usize| {
        let reference = outermost::pair(chart, a as u64, b as u64);
        assert_eq!(tuned::pair::<LEVELS>(chart, a, b), reference, "seed {seed}");
    };
    let judge = |claims: &[u8]| {
        let reference = outermost::judge(chart, claims);
        let tuned = tuned::judge::<LEVELS>(chart, claims);
        assert_eq!(tuned, reference, "seed {seed}");
    };
    for _ in 0..4 {
        pair(random.below(nodes + 1), random.below(nodes + 1));
        judge(&claims(&mut random, nodes));
    }
    for beyond in [192, 255, 256, 257, usize::MAX] {
        pair(1, beyond);
        pair(beyond, 1);
    }
    if calls::admit(chart) > 0 {
        judge(&open_claims(&mut random, chart));
    }
}

/// Lists of accesses, whole and damaged, short and of the greatest length.
fn assert_races<const LEVELS: bool>(chart: &[u8], seed: u64) {
    let mut random = Random::new(seed);
    let chart_read = read_outermost(chart);
    let open: Vec<u8> = chart_read.map_or(vec![1], |chart| {
        let nodes = 0..chart.nodes.len();
        let open = nodes.filter(|&x| !chart.is_barrier(x));
        open.map(|x| x as u8).collect()
    });
    let nodes = if open.is_empty() { vec![1] } else { open };
    let most = if seed.is_multiple_of(100) { 1_025 } else { 20 };
    let variables = random.between(1, 400);
    let whole = accesses(&mut random, &nodes, most - seed as usize % 2, variables);
    let wrong = wrong_accesses(&mut random, whole.clone());
    for list in [&[][..], &whole, &wrong] {
        let count = list.len() / 4;
        let length = count * (count + 1) / 2;
        for room in [length.saturating_sub(1), length, length + 9] {
            let tuned = |chart: &[u8], out: &mut [u8]| tuned::races::<LEVELS>(chart, list, out);
            let plain = |chart: &[u8], out: &mut [u8]| races::write(chart, 255, list, out);
            assert_writes_alike(chart, room, tuned, plain, seed);
        }
    }
}

fn assert_alike<const LEVELS: bool>(chart: &[u8], seed: u64) {
    let number = calls::admit(chart);
    assert_eq!(tuned::admit::<LEVELS>(chart), number, "seed {seed}");
    let nodes = match number {
        1.. => number as usize & 255,
        _ => 12,
    };
    assert_written::<LEVELS>(chart, nodes, seed);
    assert_judged::<LEVELS>(chart, nodes, seed);
    assert_races::<LEVELS>(chart, seed);
}

#[test]
fn drawn_charts() {
    for seed in 0..3_000 {
        let (_, chart) = draw(&mut Random::new(seed));
        assert_alike::<true>(&chart, seed);
        assert_alike::<false>(&chart, seed);
    }
}

#[test]
fn admit_and_levels_on_many_charts() {
    let mut random = Random::new(77);
    for index in 0..60_000 {
        let (source, chart) = draw(&mut random);
        let reference = calls::admit(&chart);
        for tuned in [tuned::admit::<true>(&chart), tuned::admit::<false>(&chart)] {
            assert_eq!(tuned, reference, "draw {index}, {source:?}");
        }
        assert_writes_alike(&chart, 192, tuned::distances, outermost::distances, index);
    }
}

/// Dense charts with few barriers and with many: long lists of edges, and every way to the levels.
#[test]
fn large_charts() {
    for seed in 0..150 {
        let chart = charts::large(&mut Random::new(seed));
        assert_alike::<true>(&chart, seed);
        assert_alike::<false>(&chart, seed);
    }
}

#[test]
fn benchmark_charts() {
    let each = benchmark::all().into_iter().chain(benchmark::criticals());
    let each = each.chain(benchmark::sorts()).map(|(_, chart)| chart);
    let in_turn = benchmark::in_turn().into_iter();
    let in_turn = in_turn.chain(benchmark::sorts_in_turn());
    for (seed, chart) in each.chain(in_turn).enumerate() {
        assert_alike::<true>(&chart, seed as u64);
        assert_alike::<false>(&chart, seed as u64);
    }
}

/// A path of so many nodes on which rising and falling edges alternate, with a single that returns at its begin, and
/// further rising edges that lead back on it: sweeps of short lists are given up, with levels among them or without.
fn slow(nodes: usize, further: usize) -> Vec<u8> {
    let on_path = |place: usize| match place % 2 {
        0 => 1 + place / 2,
        _ => nodes - place / 2,
    };
    let mut chart = ChartBuilder::new();
    let single = chart.construct(Construct::SINGLE, Construct::NONE, 0);
    chart.barrier();
    for node in 1..=nodes {
        match (0..3).find(|&place| on_path(place) == node) {
            Some(0) => chart.begin(single),
            Some(1) => chart.plain(single),
            Some(_) => chart.end(single),
            None => chart.plain(Construct::NONE),
        };
    }
    let finish = chart.barrier();
    (1..nodes).for_each(|place| chart.edge(on_path(place - 1), on_path(place)));
    let back = (4..nodes).step_by(2);
    let back = back.flat_map(|from| (3..from).step_by(2).map(move |to| (from, to)));
    for (from, to) in back.take(further) {
        chart.edge(on_path(from), on_path(to));
    }
    let last = on_path(nodes - 1);
    chart.edge(0, on_path(0));
    chart.edge(last, on_path(0));
    chart.edge(last, finish);
    chart.bytes()
}

#[test]
fn slow_charts() {
    for (seed, (nodes, further)) in [(188, 0), (124, 130), (124, 60)].into_iter().enumerate() {
        let chart = slow(nodes, further);
        assert!(calls::admit(&chart) > 0, "{nodes} nodes");
        assert_alike::<true>(&chart, seed as u64);
        assert_alike::<false>(&chart, seed as u64);
    }
}

/// Chart Y with filters that are equal, different, and different in one byte alone; the longest chart.
#[test]
fn masked_charts() {
    let filters = [0, 1, 255, 256, 257, 65_280, 65_535];
    let pairs = filters.map(|one| filters.map(|other| [one, other]));
    let each = pairs.as_flattened().iter().map(|&x| chart_y(x, &[(6, 1)]));
    for (seed, chart) in each.chain([longest()]).enumerate() {
        assert_alike::<true>(&chart, seed as u64);
        assert_alike::<false>(&chart, seed as u64);
    }
}

/// Charts with many criticals.
#[test]
fn charts_with_criticals() {
    for seed in 0..1_500 {
        let mut random = Random::new(seed);
        let chart = match seed % 3 {
            0 => {
                let branches = random.between(1, 24);
                charts::locks::branching(&mut random, branches)
            }
            _ => {
                let shape = charts::valid::Shape::locked(&mut random);
                charts::valid::valid(&mut random, &shape)
            }
        };
        let chart = chart.bytes();
        assert_alike::<true>(&chart, seed);
        assert_alike::<false>(&chart, seed);
    }
}

/// Charts with regions inside, and with 62 and 63 barriers in one.
#[test]
fn charts_with_regions() {
    let known = [chart_z(&[]), chart_w(), chart_v(), chart_u()];
    let around = (1..=4).map(|kind| chart_t(kind, &[(7, 1)]));
    let full = [61, 62, 63].map(charts::regions::region_of_barriers);
    let drawn = (0..1_000).map(|seed| {
        let mut random = Random::new(seed);
        let shape = charts::valid::Shape::nested(&mut random);
        charts::valid::valid(&mut random, &shape).bytes()
    });
    let each = known.into_iter().chain(around).chain(full).chain(drawn);
    for (seed, chart) in each.enumerate() {
        assert_alike::<true>(&chart, seed as u64);
        assert_alike::<false>(&chart, seed as u64);
    }
}
