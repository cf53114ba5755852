//! Race verdicts (02, Note 9) of the archive: known ones, lists of all lengths, whole and damaged, in each
//! region of drawn charts, and refusal 20 between 23 and 11.

use bohrali::limits::{MOST_ACCESSES, MOST_RACES};
use bohrali::Access;
use charts::races::{accesses, wrong_accesses};
use charts::random::Random;
use charts::valid::{valid, Shape};
use compare::regions::{regions_of, BEYOND, OUTERMOST};
use compare::Archive;
use reference::chart::Construct;
use reference::known::*;
use reference::{races, regions};

const CHARTS: usize = 3_000;
const FILL: u8 = 0x5A;

/// The nodes of a region that can be asked about, or some others where there are none.
fn open(chart: &[u8], region: usize) -> Vec<u8> {
    let Ok(region) = regions::read(chart, region as u64) else {
        return vec![1];
    };
    let nodes = 0..region.place.len() as u8;
    let open: Vec<u8> = nodes.filter(|&x| region.judged(x.into()).is_ok()).collect();
    if open.is_empty() {
        vec![1]
    } else {
        open
    }
}

/// Number and bytes for a list agree, with buffers about its result. Gives the number.
fn agree(archive: &mut Archive, chart: &[u8], region: usize, list: &[u8]) -> i64 {
    let count = list.len() / races::ACCESS_BYTES;
    let length = count * (count + 1) / 2;
    let mut number = 0;
    for room in [length.saturating_sub(1), length, length + 13] {
        let room = room.min(MOST_RACES + 13);
        let (mut ours, mut theirs) = (vec![FILL; room], vec![FILL; room]);
        number = archive.races(chart, region, list, &mut ours);
        let expected = races::write(chart, region as u64, list, &mut theirs);
        assert_eq!(number, expected, "{region}, {list:?}, {chart:02X?}");
        assert!(ours == theirs, "{region}, {list:?}, {chart:02X?}");
    }
    number
}

#[test]
fn known_races() {
    let mut archive = Archive::new();
    let (single, critical) = (Construct::SINGLE, Construct::CRITICAL);
    let inner = nested(&[(Construct::PARALLEL, 0), (critical, 0)], true).bytes();
    let figure = figure_2b();
    for (chart, region, list, expected) in [
        (
            &chart_s(critical, &[]),
            OUTERMOST,
            &[Access::write(2, 0)][..],
            &[1][..],
        ),
        (
            &chart_s(single, &[]),
            OUTERMOST,
            &[Access::write(2, 0)],
            &[0],
        ),
        (&chart_k(), OUTERMOST, &[Access::write(1, 0)], &[2]),
        (&chart_k(), OUTERMOST, &[Access::read(1, 0)], &[0]),
        (
            &chart_s(critical, &[]),
            OUTERMOST,
            &[Access::write(2, 1), Access::read(2, 257)],
            &[1, 0, 0],
        ),
        (
            &chart_s(critical, &[]),
            OUTERMOST,
            &[Access::write(1, 1), Access::write(2, 1)],
            &[2, 2, 1],
        ),
        (
            &chart_x(&[]),
            OUTERMOST,
            &[Access::write(3, 1), Access::write(5, 1)],
            &[0, 2, 0],
        ),
        (
            &figure,
            OUTERMOST,
            &[Access::write(7, 1), Access::write(8, 1)],
            &[2, 0, 2],
        ),
        (&inner, OUTERMOST, &[Access::write(3, 0)], &[2]),
        (&inner, 0, &[Access::write(3, 0)], &[1]),
        (&chart_z(&[]), OUTERMOST, &[Access::write(3, 0)], &[2]),
        (&chart_z(&[]), 0, &[Access::write(3, 0)], &[0]),
    ] {
        let mut out = [FILL; 5];
        let number = archive.races(chart, region, Access::bytes(list), &mut out);
        assert_eq!(number, expected.len() as i64);
        assert_eq!(out[..expected.len()], *expected);
        assert!(out[expected.len()..].iter().all(|&byte| byte == FILL));
        agree(&mut archive, chart, region, Access::bytes(list));
    }
}

#[test]
fn lists_of_all_lengths() {
    let mut archive = Archive::new();
    let mut random = Random::new(9);
    let chart = chart_x(&[(7, 1)]);
    let nodes = open(&chart, OUTERMOST);
    for count in (0..70).chain([255, 256, 257, 1_023, MOST_ACCESSES]) {
        let list = accesses(&mut random, &nodes, count, 4);
        let number = agree(&mut archive, &chart, OUTERMOST, &list);
        assert_eq!(number, (count * (count + 1) / 2) as i64);
    }
    for count in [MOST_ACCESSES + 1, 2_048, 65_536] {
        let list = accesses(&mut random, &nodes, count, 4);
        assert_eq!(agree(&mut archive, &chart, OUTERMOST, &list), -20);
    }
    let most = accesses(&mut random, &nodes, MOST_ACCESSES + 1, 4);
    for length in [4_093, 4_094, 4_095, 4_097, 4_098, 4_099] {
        let number = agree(&mut archive, &chart, OUTERMOST, &most[..length]);
        assert_eq!(number, -20, "{length}");
    }
}

/// A chart with criticals, with parallels, of any other kind, or a large one.
fn drawn(random: &mut Random, turn: usize) -> Vec<u8> {
    let shape = match turn % 8 {
        0..5 => Shape::locked(random),
        5 => Shape::nested(random),
        6 => Shape::small(random),
        _ => Shape::large(random),
    };
    valid(random, &shape).bytes()
}

#[test]
fn drawn_charts_in_each_region() {
    let mut archive = Archive::new();
    let mut random = Random::new(51);
    let (mut seen, mut refused) = ([0usize; 3], 0);
    for turn in 0..CHARTS {
        let chart = drawn(&mut random, turn);
        for region in regions_of(&chart).into_iter().rev().take(3) {
            let nodes = open(&chart, region);
            let (count, variables) = (random.between(1, 24), random.between(1, 6));
            let list = accesses(&mut random, &nodes, count, variables);
            let number = agree(&mut archive, &chart, region, &list);
            if let Ok(length) = usize::try_from(number) {
                let mut out = vec![FILL; length];
                archive.races(&chart, region, &list, &mut out);
                out.iter().for_each(|&race| seen[usize::from(race)] += 1);
            }
            let wrong = wrong_accesses(&mut random, list);
            refused += usize::from(agree(&mut archive, &chart, region, &wrong) == -20);
        }
    }
    assert!(seen.iter().all(|&times| times > 1_000), "{seen:?}");
    assert!(refused > CHARTS / 2, "{refused}");
}

/// The longest list for large charts.
#[test]
fn whole_lists_of_large_charts() {
    let mut archive = Archive::new();
    for seed in 0..12 {
        let mut random = Random::new(seed);
        let chart = charts::large(&mut random);
        let nodes = open(&chart, OUTERMOST);
        let list = accesses(&mut random, &nodes, MOST_ACCESSES, 1 + 20 * seed as usize);
        agree(&mut archive, &chart, OUTERMOST, &list);
    }
}

/// 23 before 20, and 20 before 11, whatever is wrong with a list; nothing is written.
#[test]
fn refusals_in_order() {
    let mut archive = Archive::new();
    let chart = chart_z(&[]);
    let good = Access::write(3, 0);
    let long = vec![good; MOST_ACCESSES + 1];
    let wrong: [&[u8]; 9] = [
        &[3],
        &[3, 1],
        &[3, 1, 0],
        &[3, 1, 0, 0, 3],
        &[0, 1, 0, 0],
        &[7, 0, 0, 0],
        &[8, 1, 0, 0],
        &[3, 2, 0, 0],
        Access::bytes(&long),
    ];
    let mut refused = |chart: &[u8], region: usize, list: &[u8], row: i64| {
        for room in [0, 2, 700] {
            let mut out = vec![FILL; room];
            assert_eq!(archive.races(chart, region, list, &mut out), -row);
            assert_eq!(out, vec![FILL; room]);
        }
    };
    for list in wrong {
        for region in [0, OUTERMOST] {
            refused(&chart, region, list, 20);
        }
        for region in [1, 254].into_iter().chain(BEYOND) {
            refused(&chart, region, list, 23);
        }
        refused(&chart[1..], 9, list, 4);
    }
    // of the inner region its Start, its barrier, its Finish and what is outside
    for node in [1, 5, 6, 7] {
        refused(&chart, 0, &[node, 0, 0, 0], 20);
    }
    let two = [good; 2];
    let mut out = [FILL; 2];
    assert_eq!(archive.races(&chart, 0, Access::bytes(&two), &mut out), -11);
    assert_eq!(out, [FILL; 2]);
    assert_eq!(archive.races(&chart, 0, &[], &mut []), 0);
}
