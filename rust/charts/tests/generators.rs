//! The generators keep their promises: valid charts are admitted, every refusal is hit, the
//! benchmark's charts have the sizes they are named after.

use charts::random::Random;
use charts::{benchmark, damage, draw, large, small, valid, Source};
use reference::chart::{Chart, Construct, Edge};
use reference::refusals::decode_checked;
use reference::regions::{read_outermost, OUTERMOST};

#[test]
fn valid_charts_are_admitted() {
    for seed in 0..20_000 {
        let chart = small(&mut Random::new(seed));
        assert!(decode_checked(&chart).is_ok(), "small, seed {seed}");
    }
    for seed in 0..2_000 {
        let chart = large(&mut Random::new(seed));
        assert!(decode_checked(&chart).is_ok(), "large, seed {seed}");
    }
}

/// How many of some charts have a property.
fn share(charts: &[Chart], property: impl Fn(&Chart) -> bool) -> usize {
    charts.iter().filter(|&chart| property(chart)).count()
}

#[test]
fn large_charts_meet_the_limits() {
    let draws = (0..2_000).map(|seed| large(&mut Random::new(seed)));
    let charts: Vec<Chart> = draws.map(|x| decode_checked(&x).unwrap()).collect();
    assert!(share(&charts, |x| x.nodes.len() == 192) > 500);
    assert!(share(&charts, |x| x.edges.len() > 900) > 5);
    assert!(share(&charts, |x| x.constructs.len() == 48) > 100);
    assert!(share(&charts, |x| x.barriers().len() == 64) > 50);
}

#[test]
fn small_charts_have_every_kind_and_returns() {
    let draws = (0..2_000).map(|seed| small(&mut Random::new(seed)));
    let charts: Vec<Chart> = draws.map(|x| decode_checked(&x).unwrap()).collect();
    for kind in Construct::SINGLE..=Construct::PARALLEL {
        let has_kind = |x: &Chart| x.constructs.iter().any(|c| c.kind == kind);
        assert!(share(&charts, has_kind) > 100, "kind {kind}");
    }
    let returns = |x: &Chart| {
        let outermost = x.read_for(OUTERMOST).chart;
        reference::phases::Phases::of(&outermost)
            .returns
            .contains(&true)
    };
    assert!(share(&charts, returns) > 500);
    assert!(share(&charts, |x| x.nodes.len() > 12) == 0);
}

#[test]
fn small_charts_have_sections_of_every_form() {
    let draws = (0..4_000).map(|seed| small(&mut Random::new(seed)));
    let charts: Vec<Chart> = draws.map(|x| read_outermost(&x).unwrap()).collect();
    let dealt = |chart: &Chart, property: &dyn Fn(usize) -> bool| {
        let constructs = chart.constructs.iter().enumerate();
        let mut dealt = constructs.filter(|(_, x)| x.kind == Construct::SECTIONS);
        dealt.any(|(number, _)| property(number))
    };
    let sections = |count: usize| move |x: &Chart| dealt(x, &|c| x.sections_of(c).len() == count);
    for (count, least) in [(0, 200), (1, 200), (2, 100), (3, 50)] {
        let charts = share(&charts, sections(count));
        assert!(charts > least, "{count} sections: {charts} charts");
    }
    let returning = |x: &Chart| {
        let phases = reference::phases::Phases::of(x);
        dealt(x, &|c| phases.returns[c] && !x.sections_of(c).is_empty())
    };
    assert!(share(&charts, returning) > 200);
    let below_section = |x: &Chart| {
        let parents = x.constructs.iter().map(|x| usize::from(x.parent));
        let mut parents = parents.filter_map(|parent| x.constructs.get(parent));
        parents.any(|parent| parent.kind == Construct::SECTION)
    };
    assert!(share(&charts, below_section) > 50, "criticals in sections");
    for kind in [Construct::SINGLE, Construct::DO] {
        let beside = |x: &Chart| dealt(x, &|_| x.constructs.iter().any(|c| c.kind == kind));
        assert!(share(&charts, beside) > 50, "kind {kind} beside sections");
    }
}

/// Pairs of masked constructs of a chart, by their filters.
fn filter_pairs(chart: &Chart) -> Vec<(u16, u16)> {
    let masked = chart.constructs.iter().enumerate();
    let masked = masked.filter(|(_, x)| x.kind == Construct::MASTER);
    let others = |first: usize| masked.clone().filter(move |(number, _)| *number > first);
    masked
        .clone()
        .flat_map(|(first, x)| others(first).map(|(_, y)| (x.filter, y.filter)))
        .collect()
}

#[test]
fn charts_have_both_editions_and_filters_of_every_form() {
    for (name, draws) in [
        (
            "small",
            (0..2_000)
                .map(|seed| small(&mut Random::new(seed)))
                .collect::<Vec<_>>(),
        ),
        (
            "large",
            (0..400).map(|seed| large(&mut Random::new(seed))).collect(),
        ),
    ] {
        let charts: Vec<Chart> = draws.iter().map(|x| decode_checked(x).unwrap()).collect();
        let least = charts.len() / 50;
        for edition in [1, 2] {
            assert!(
                share(&charts, |x| x.edition == edition) > charts.len() / 3,
                "{name}"
            );
        }
        for filter in [0, 1, 255, 256, 65_535] {
            let has = |x: &Chart| {
                x.edition == 2
                    && x.constructs
                        .iter()
                        .any(|c| c.kind == 2 && c.filter == filter)
            };
            assert!(share(&charts, has) > least, "{name}, filter {filter}");
        }
        let equal = |x: &Chart| filter_pairs(x).iter().any(|(f, g)| f == g && *f != 0);
        assert!(share(&charts, equal) > least, "{name}, equal filters");
        let different = |x: &Chart| filter_pairs(x).iter().any(|(f, g)| f != g);
        assert!(
            share(&charts, different) > least,
            "{name}, different filters"
        );
        let low_bytes = |x: &Chart| {
            filter_pairs(x)
                .iter()
                .any(|(f, g)| f != g && f % 256 == g % 256)
        };
        assert!(
            share(&charts, low_bytes) > least / 2,
            "{name}, equal low bytes"
        );
    }
}

#[test]
fn damaged_editions_and_filters_are_refused() {
    let mut unlike = 0;
    for seed in 0..1_000 {
        let mut random = Random::new(seed);
        let shape = valid::Shape::small(&mut random);
        let mut chart = valid::valid(&mut random, &shape);
        let other = decode_checked(&damage::other_edition(chart.bytes()));
        match chart.constructs.is_empty() {
            true => assert!(other.is_ok(), "seed {seed}"),
            false => assert_eq!(other, Err(4), "seed {seed}"),
        }
        unlike += usize::from(!chart.constructs.is_empty());
        chart.edition = 2;
        let bytes = damage::wrong_filter(&mut random, &mut chart);
        assert_eq!(decode_checked(&bytes), Err(6), "seed {seed}");
    }
    assert!(unlike > 500, "{unlike}");
}

#[test]
fn damage_hits_the_row_it_is_aimed_at() {
    for row in damage::ROWS {
        let mut hits = 0;
        for seed in 0..1_000 {
            let mut random = Random::new(seed);
            let shape = match seed % 4 {
                0 => valid::Shape::large(&mut random),
                _ => valid::Shape::small(&mut random),
            };
            let chart = valid::valid(&mut random, &shape);
            let bytes = damage::aimed_at(&mut random, &chart, row);
            hits += usize::from(decode_checked(&bytes) == Err(row));
        }
        println!("row {row}: {hits} of 1000");
        assert!(hits > 400, "row {row}: {hits} of 1000");
    }
}

#[test]
fn damaged_sections_are_refused() {
    let mut joined = 0;
    for seed in 0..1_000 {
        let mut random = Random::new(seed);
        let shape = valid::Shape::small(&mut random);
        let mut chart = valid::valid(&mut random, &shape);
        if let Some(edge) = damage::between_sections(&mut random, &chart) {
            let mut chart = chart.clone();
            chart.edges.push(edge);
            assert_eq!(decode_checked(&chart.bytes()), Err(9), "seed {seed}");
            joined += 1;
        }
        let bytes = damage::wrong_in_sections(&mut random, &mut chart);
        assert_eq!(decode_checked(&bytes), Err(6), "seed {seed}");
    }
    assert!(joined > 150, "{joined}");
}

#[test]
fn draws_hit_every_outcome_many_times() {
    let mut outcomes = [0usize; 11];
    let mut noise = 0;
    let mut random = Random::new(1);
    for _ in 0..20_000 {
        let (source, bytes) = draw(&mut random);
        noise += usize::from(source == Source::Noise);
        outcomes[usize::from(decode_checked(&bytes).err().unwrap_or(0))] += 1;
    }
    println!("admitted, then refusals 1 to 10: {outcomes:?}");
    assert!(outcomes.iter().all(|&count| count > 400), "{outcomes:?}");
    assert!(noise > 500);
}

#[test]
fn benchmark_charts_are_admitted() {
    let sizes = [
        (192, 1024, 0, 64),
        (192, 191, 0, 2),
        (192, 1024, 0, 2),
        (192, 275, 7, 62),
        (170, 217, 48, 2),
        (192, 1024, 1, 3),
    ];
    for ((name, bytes), (nodes, edges, constructs, barriers)) in
        benchmark::all().into_iter().zip(sizes)
    {
        let chart = decode_checked(&bytes).unwrap_or_else(|row| panic!("{name}: refused {row}"));
        assert_eq!(chart.nodes.len(), nodes, "{name}");
        assert_eq!(chart.edges.len(), edges, "{name}");
        assert_eq!(chart.constructs.len(), constructs, "{name}");
        assert_eq!(chart.barriers().len(), barriers, "{name}");
    }
}

#[test]
fn all_constructs_of_the_returning_chart_return() {
    let [_, _, _, _, (_, bytes), _] = benchmark::all();
    let phases = reference::phases::Phases::of(&decode_checked(&bytes).unwrap());
    assert_eq!(phases.returns, vec![true; 48]);
}

/// Sweeps along rising edges and then along falling ones, as many as it takes to bring a mark from
/// start to all nodes and one that sees no change.
fn sweeps(chart: &Chart) -> usize {
    let edges = chart.edges.iter().copied();
    let open = |node: u8| !chart.is_barrier(node.into());
    let between = edges.filter(|x| open(x.from) && open(x.to));
    let (up, mut down): (Vec<Edge>, Vec<Edge>) = between.partition(|x| x.from < x.to);
    down.reverse();
    let mut marked = vec![false; chart.nodes.len()];
    marked[1] = true;
    for sweep in 0.. {
        let before = marked.clone();
        for edge in if sweep % 2 == 0 { &up } else { &down } {
            marked[usize::from(edge.to)] |= marked[usize::from(edge.from)];
        }
        if sweep > 0 && marked == before {
            return sweep + 1;
        }
    }
    unreachable!("masks grow only so often")
}

#[test]
fn the_zigzag_takes_the_most_sweeps() {
    let [.., (_, bytes)] = benchmark::all();
    let chart = decode_checked(&bytes).unwrap();
    // an edge a sweep, past all 189 nodes between the barriers
    assert_eq!(sweeps(&chart), 189);
    let distances = reference::distances::distances(&chart);
    let farthest = distances.iter().filter(|&&x| x != 255).max();
    assert_eq!(farthest, Some(&189));
    assert_eq!(reference::phases::Phases::of(&chart).returns, [true]);
}

#[test]
fn charts_in_turn_are_admitted_or_refused_by_each_row() {
    let charts = benchmark::in_turn();
    let mut outcomes = [0usize; 11];
    let mut admitted = Vec::new();
    for bytes in &charts {
        match decode_checked(bytes) {
            Ok(chart) => admitted.push(chart),
            Err(row) => outcomes[usize::from(row)] += 1,
        }
    }
    assert_eq!(admitted.len(), 40);
    assert_eq!(outcomes, [0, 0, 0, 0, 0, 4, 4, 4, 4, 4, 4]);
    for kind in Construct::SINGLE..=Construct::ORDERED {
        let has_kind = |x: &Chart| x.constructs.iter().any(|c| c.kind == kind);
        assert!(share(&admitted, has_kind) > 10, "kind {kind}");
    }
    assert!(share(&admitted, |x| x.edges.len() > 350) >= 12);
    assert!(share(&admitted, |x| x.barriers().len() > 10) >= 8);
    let different: std::collections::BTreeSet<&Vec<u8>> = charts.iter().collect();
    assert_eq!(different.len(), 64);
}

/// Constructs of a chart that return, and those that could and do not.
fn returns(chart: &Chart) -> [usize; 2] {
    let returns = reference::phases::Phases::of(chart).returns;
    let returnable = [Construct::SINGLE, Construct::DO, Construct::SECTIONS];
    let kinds = chart.constructs.iter().map(|x| x.kind);
    let returns = kinds
        .zip(returns)
        .filter(|(kind, _)| returnable.contains(kind));
    let (back, on): (Vec<bool>, Vec<bool>) = returns.map(|x| x.1).partition(|&back| back);
    [back.len(), on.len()]
}

#[test]
fn charts_of_more_sorts_are_what_they_are_named_after() {
    let sizes = [
        (48, [0, 0]),
        (48, [12, 12]),
        (40, [20, 20]),
        (48, [4, 4]),
        (40, [0, 0]),
        (10, [2, 1]),
        (48, [7, 4]),
    ];
    for ((name, bytes), (constructs, returning)) in benchmark::sorts().into_iter().zip(sizes) {
        let chart = decode_checked(&bytes).unwrap_or_else(|row| panic!("{name}: refused {row}"));
        assert_eq!(chart.constructs.len(), constructs, "{name}");
        assert_eq!(returns(&chart), returning, "{name}");
    }
}

#[test]
fn charts_of_more_sorts_in_turn_have_all_sorts() {
    let bytes = benchmark::sorts_in_turn();
    let different: std::collections::BTreeSet<&Vec<u8>> = bytes.iter().collect();
    assert_eq!(different.len(), 64);
    let charts: Vec<Chart> = bytes.iter().map(|x| decode_checked(x).unwrap()).collect();
    assert!(charts
        .iter()
        .all(|x| (10..=48).contains(&x.constructs.len())));
    assert!(share(&charts, |x| x.constructs.len() > 30) > 15);
    for kind in Construct::SINGLE..=Construct::SECTION {
        let has_kind = |x: &Chart| x.constructs.iter().any(|c| c.kind == kind);
        assert!(share(&charts, has_kind) > 40, "kind {kind}");
    }
    let nested = |x: &Chart| {
        let critical = |number: u8| {
            x.constructs.get(usize::from(number)).map(|c| c.kind) == Some(Construct::CRITICAL)
        };
        x.constructs
            .iter()
            .any(|c| c.kind == Construct::CRITICAL && critical(c.parent))
    };
    assert!(share(&charts, nested) > 20);
    assert!(share(&charts, |x| returns(x).iter().all(|&count| count > 0)) > 30);
    assert!(share(&charts, |x| filter_pairs(x).iter().any(|(f, g)| f != g)) > 15);
}

#[test]
fn charts_of_source_are_admitted_and_different() {
    let charts = benchmark::source(&[5, 40, 100, 192], 400);
    let different: std::collections::BTreeSet<&Vec<u8>> = charts.iter().collect();
    assert_eq!(different.len(), 400);
    let charts: Vec<Chart> = charts.iter().map(|x| decode_checked(x).unwrap()).collect();
    assert!(share(&charts, |x| x.nodes.len() < 20) > 80);
    assert!(share(&charts, |x| x.nodes.len() > 150) > 80);
}

/// FNV-1a over the bytes of some charts.
fn digest<'a>(charts: impl IntoIterator<Item = &'a Vec<u8>>) -> u64 {
    let bytes = charts.into_iter().flatten();
    bytes.fold(0xCBF2_9CE4_8422_2325, |digest, &byte| {
        (digest ^ u64::from(byte)).wrapping_mul(0x0100_0000_01B3)
    })
}

/// Figures of the benchmark can be compared only while its charts are the same.
#[test]
fn benchmark_charts_stay_what_they_are() {
    let repeated = benchmark::all().map(|(_, chart)| chart);
    let rings = benchmark::rings().map(|(_, chart)| chart);
    let sorts = benchmark::sorts().map(|(_, chart)| chart);
    let digests = [
        digest(&repeated),
        digest(&benchmark::in_turn()),
        digest(&rings),
        digest(&sorts),
        digest(&benchmark::sorts_in_turn()),
    ];
    assert_eq!(
        digests,
        [
            0x13ED_3A24_1488_B394,
            0x65CD_BCFC_5735_F67C,
            0x8D51_155D_9878_BA93,
            0x9A4C_91EA_2EC7_3392,
            0x2C27_FEB5_D2BC_00DB
        ]
    );
}
