//! Two lists on one chart (02, Note 4), by the program `judge_two`: its text against the second
//! implementation, and each number against the archive's Judge on that list alone, on valid, damaged and
//! random charts, for any region, with lists that pass, fail at any place and are refused.

use charts::random::Random;
use compare::programs::printed;
use compare::regions::{any_region, OUTERMOST};
use compare::Archive;
use reference::answers::Rules;
use reference::calls::judge;
use reference::chart::Construct;
use reference::known::{chart_s, chart_z, longest};
use reference::regions::read;
use reference::two_lists::{input, judge_two, text, MOST_INPUT, MOST_LIST};

const CHARTS: usize = 3_000;
const SEED: u64 = 2_026_111_504;
const PROGRAM: &str = "judge_two";

fn agree(region: u8, lists: [&[u8]; 2], chart: &[u8]) -> String {
    let input = input(region, lists, chart);
    let (ours, theirs) = (printed(PROGRAM, &input), text(&input));
    assert_eq!(ours, theirs, "region {region}, {lists:?}, {chart:02X?}");
    ours
}

/// The pairs of a region that a list may name, those that are never concurrent and the others; of a chart
/// that is refused, some.
fn pairs(chart: &[u8], region: u8) -> [Vec<[u8; 2]>; 2] {
    let Ok(region) = read(chart, region.into()) else {
        return [vec![[1, 1], [2, 3]], vec![[0, 255]]];
    };
    let rules = Rules::of(region.chart.clone());
    let open = (0..region.place.len() as u8).filter(|&x| region.judged(x.into()).is_ok());
    let open: Vec<u8> = open.take(20).collect();
    let all = open.iter().flat_map(|&a| open.iter().map(move |&b| [a, b]));
    let (held, others) = all.partition(|pair| {
        let [a, b] = pair.map(|x| region.judged(x.into()).expect("an open node"));
        rules.answer(a, b) != Rules::CONCURRENT
    });
    [held, others]
}

/// A list with a false pair behind some that hold, with none, or with something that is refused.
fn list(random: &mut Random, [held, others]: &[Vec<[u8; 2]>; 2]) -> Vec<u8> {
    let mut list = Vec::new();
    let count = random.below(5);
    let mut add = |random: &mut Random, from: &[[u8; 2]]| {
        if !from.is_empty() {
            list.extend(random.pick(from));
        }
    };
    for _ in 0..count {
        add(random, held);
    }
    if random.percent(70) {
        add(random, others);
        for _ in 0..random.below(3) {
            let from = random.pick(&[held, others]);
            add(random, from);
        }
    }
    match random.below(20) {
        0 => list.push(random.byte()),
        1 => list.extend([0, 0]),
        2 => list.extend([random.byte(), random.byte()]),
        _ => (),
    }
    list
}

/// How the two lists fare together, by their numbers.
fn case(first: i64, second: i64) -> usize {
    match (first > 0, second > 0) {
        (true, true) if first < second => 0,
        (true, true) if first == second => 1,
        (true, true) => 2,
        (true, false) if second < 0 => 3,
        (true, false) => 4,
        (false, true) if first < 0 => 5,
        (false, true) => 6,
        (false, false) => 7,
    }
}

#[test]
fn known_lists() {
    let single = chart_s(Construct::SINGLE, &[]);
    let asked = |lists| agree(255, lists, &single);
    let expected = "first 2\nsecond 1\npart 1 2\n";
    assert_eq!(asked([&[2, 2, 1, 2], &[1, 2]]), expected);
    let expected = "first 2\nsecond 2\npart 1 2\n";
    assert_eq!(asked([&[2, 2, 1, 2], &[2, 2, 3, 3, 2, 2]]), expected);
    let expected = "first -12\nsecond 1\npart 1 1 2 2\n";
    assert_eq!(asked([&[2, 2, 1], &[1, 1, 2, 2]]), expected);
    assert_eq!(asked([&[2, 2], &[0, 1]]), "first 0\nsecond -13\npart\n");
    assert_eq!(asked([&[], &[2, 2]]), "first 0\nsecond 0\npart\n");
    let refused = agree(255, [&[1, 1], &[1]], &[0; 10]);
    assert_eq!(refused, "first -1\nsecond -1\npart\n");
    let beyond = agree(1, [&[3, 3], &[1]], &chart_z(&[]));
    assert_eq!(beyond, "first -23\nsecond -23\npart\n");
    let inner = agree(0, [&[3, 3], &[3, 3, 2, 3]], &chart_z(&[]));
    assert_eq!(inner, "first 0\nsecond 2\npart 2 3\n");
}

#[test]
fn drawn_lists() {
    let mut archive = Archive::new();
    let mut random = Random::new(SEED);
    let mut cases = [0usize; 8];
    for turn in 0..CHARTS {
        let chart = match turn % 4 {
            0 => charts::draw(&mut random).1,
            1 => charts::large(&mut random),
            _ => charts::small(&mut random),
        };
        let region = any_region(&mut random, &chart);
        let region = u8::try_from(region).unwrap_or(OUTERMOST as u8);
        let named = pairs(&chart, region);
        let [first, second] = [0; 2].map(|_| list(&mut random, &named));
        agree(region, [&first, &second], &chart);
        let verdicts = judge_two(&chart, region.into(), &first, &second);
        let alone = [&first, &second].map(|list| archive.judge(&chart, region.into(), list));
        assert_eq!([verdicts.first, verdicts.second], alone);
        cases[case(verdicts.first, verdicts.second)] += 1;
    }
    assert!(cases.iter().all(|&times| times > 20), "{cases:?}");
}

/// The line of a list stays, whatever stands in the other's place.
#[test]
fn lists_do_not_touch_each_other() {
    let mut random = Random::new(SEED + 1);
    for _ in 0..100 {
        let chart = charts::small(&mut random);
        let named = pairs(&chart, 255);
        let own = list(&mut random, &named);
        let number = judge(&chart, 255, &own);
        for _ in 0..5 {
            let other = list(&mut random, &named);
            let before = agree(255, [&own, &other], &chart);
            let behind = agree(255, [&other, &own], &chart);
            assert_eq!(before.lines().next(), Some(&*format!("first {number}")));
            assert_eq!(behind.lines().nth(1), Some(&*format!("second {number}")));
        }
    }
}

/// Lists as long as their lengths can say, with the false pair last.
#[test]
fn long_lists() {
    let chart = chart_s(Construct::SINGLE, &[]);
    let mut list = vec![2; MOST_LIST - 1];
    agree(255, [&list, &list], &chart);
    list[MOST_LIST - 2] = 1;
    let both = agree(255, [&list, &list], &chart);
    assert_eq!(both, "first 32767\nsecond 32767\npart 2 1\n");
    agree(255, [&[2, 2], &list], &chart);
    list[0] = 3;
    let whole = agree(255, [&[2, 2, 1, 1], &list], &chart);
    assert!(whole.starts_with("first 2\nsecond 1\npart 3 2 2 2 "));
    list.push(2);
    let odd = agree(255, [&list, &list], &longest());
    assert_eq!(odd, "first -12\nsecond -12\npart\n");
}

/// Every input up to a chart, the longest one and one byte more; then more than a pipe holds.
#[test]
fn short_and_long_input() {
    let whole = input(
        255,
        [&[2, 2, 1, 2], &[1, 2]],
        &chart_s(Construct::SINGLE, &[]),
    );
    for length in 0..whole.len() {
        let input = &whole[..length];
        assert_eq!(printed(PROGRAM, input), text(input), "{length}");
    }
    let announced = [255, 255, 255, 0, 0, 0];
    assert_eq!(printed(PROGRAM, &announced), "input too short\n");
    for (length, line) in [
        (MOST_INPUT, "first -2\nsecond -2\npart\n"),
        (MOST_INPUT + 1, "input too long\n"),
        (2 * MOST_INPUT, "input too long\n"),
    ] {
        let input = vec![0; length];
        assert_eq!(printed(PROGRAM, &input), line, "{length}");
        assert_eq!(text(&input), line, "{length}");
    }
}
