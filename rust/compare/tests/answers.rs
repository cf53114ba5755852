//! Pair and Judge: every pair of every region of small charts, numbers out of range, and lists of claims
//! that pass, fail at any place, and are refused; lists of all pairs of large charts.

use charts::random::Random;
use compare::regions::regions_of;
use compare::Archive;
use reference::answers::Rules;
use reference::regions::{read, Region};

const CHARTS: u64 = 2_000;

/// Numbers that name no node, among them those whose low byte or low half would name one.
const BEYOND: [usize; 7] = [192, 255, 256, 257, 1 << 32, usize::MAX - 1, usize::MAX];

/// A chart as the plain implementation reads it for a region, with the nodes that can be asked about.
struct Read {
    bytes: Vec<u8>,
    number: usize,
    region: Region,
    rules: Rules,
    open: Vec<u8>,
}

fn small(random: &mut Random) -> Vec<Read> {
    read_all(charts::small(random))
}

/// A chart for each of its regions.
fn read_all(bytes: Vec<u8>) -> Vec<Read> {
    let read = |number: usize| {
        let region = read(&bytes, number as u64).expect("a valid chart");
        let nodes = 0..region.place.len() as u8;
        Read {
            bytes: bytes.clone(),
            number,
            rules: Rules::of(region.chart.clone()),
            open: nodes.filter(|&x| region.judged(x.into()).is_ok()).collect(),
            region,
        }
    };
    regions_of(&bytes).into_iter().map(read).collect()
}

impl Read {
    fn answer(&self, a: usize, b: usize) -> i64 {
        let judged = |x: usize| self.region.judged(x as u64);
        match (judged(a), judged(b)) {
            (Ok(a), Ok(b)) => self.rules.answer(a, b).into(),
            _ => -13,
        }
    }

    fn concurrent(&self, claim: &[u8]) -> bool {
        self.answer(claim[0].into(), claim[1].into()) == i64::from(Rules::CONCURRENT)
    }

    fn verdict(&self, claims: &[u8]) -> i64 {
        let failed = claims.chunks(2).position(|claim| self.concurrent(claim));
        failed.map_or(0, |index| index as i64 + 1)
    }
}

/// Small charts by rising seeds, each for all its regions.
fn small_charts() -> impl Iterator<Item = (u64, Read)> {
    (0..CHARTS).flat_map(|seed| {
        let charts = small(&mut Random::new(seed));
        charts.into_iter().map(move |chart| (seed, chart))
    })
}

#[test]
fn every_pair_of_small_charts() {
    let mut archive = Archive::new();
    let mut answers = [0usize; 6];
    for (seed, chart) in small_charts() {
        let nodes = chart.region.place.len();
        for a in 0..nodes + 1 {
            for b in 0..nodes + 1 {
                let number = archive.pair(&chart.bytes, chart.number, a, b);
                assert_eq!(number, chart.answer(a, b), "seed {seed}, pair {a} {b}");
                if let Ok(answer) = usize::try_from(number) {
                    answers[answer] += 1;
                }
            }
        }
    }
    assert!(answers.iter().all(|&times| times > 50), "{answers:?}");
}

#[test]
fn numbers_out_of_range() {
    let mut archive = Archive::new();
    for (seed, chart) in small_charts() {
        let Some(&open) = chart.open.first() else {
            continue;
        };
        for beyond in BEYOND {
            for (a, b) in [
                (open.into(), beyond),
                (beyond, open.into()),
                (beyond, beyond),
            ] {
                let number = archive.pair(&chart.bytes, chart.number, a, b);
                assert_eq!(number, -13, "seed {seed}, pair {a} {b}");
            }
        }
    }
}

#[test]
fn claims_of_small_charts() {
    let mut archive = Archive::new();
    let mut random = Random::new(6);
    let mut verdicts = [0usize; 2];
    for (seed, chart) in small_charts() {
        if chart.open.is_empty() {
            continue;
        }
        let mut claims: Vec<u8> = (0..2 * random.below(40))
            .map(|_| random.pick(&chart.open))
            .collect();
        if random.percent(50) {
            let held = claims.chunks(2).filter(|claim| !chart.concurrent(claim));
            claims = held.flatten().copied().collect();
        }
        let number = archive.judge(&chart.bytes, chart.number, &claims);
        assert_eq!(number, chart.verdict(&claims), "seed {seed}, {claims:?}");
        verdicts[usize::from(number > 0)] += 1;
        assert_refused(&mut archive, &chart, claims, random.pick(&chart.open));
    }
    assert!(verdicts.iter().all(|&times| times > 200), "{verdicts:?}");
}

/// All pairs of a large chart that are never concurrent pass; with the others behind them, the list
/// fails at the first of these.
#[test]
fn whole_lists_of_large_charts() {
    let mut archive = Archive::new();
    let mut failed = 0;
    let each = (0..60).map(|seed| (seed, charts::large(&mut Random::new(seed))));
    let read = each.flat_map(|(seed, bytes)| read_all(bytes).into_iter().map(move |x| (seed, x)));
    for (seed, chart) in read {
        let open = &chart.open;
        let pairs = open.iter().flat_map(|&a| open.iter().map(move |&b| [a, b]));
        let (others, held): (Vec<[u8; 2]>, _) = pairs.partition(|claim| chart.concurrent(claim));
        let held: Vec<[u8; 2]> = held;
        assert_eq!(
            archive.judge(&chart.bytes, chart.number, held.as_flattened()),
            0,
            "seed {seed}"
        );
        if !others.is_empty() {
            let first = held.len() as i64 + 1;
            let all = [held, others].concat();
            let number = archive.judge(&chart.bytes, chart.number, all.as_flattened());
            assert_eq!(number, first, "seed {seed}");
            failed += 1;
        }
    }
    assert!(failed > 20, "{failed}");
}

/// A byte more is 12; Start anywhere, a barrier of the outermost region and outside all others, also behind a claim that fails, is 13; both are 12.
fn assert_refused(archive: &mut Archive, chart: &Read, mut claims: Vec<u8>, open: u8) {
    let mut refused = |claims: &[u8], row: i64| {
        let number = archive.judge(&chart.bytes, chart.number, claims);
        assert_eq!(number, -row, "{claims:?}");
    };
    claims.push(open);
    refused(&claims, 12);
    claims.push(0);
    refused(&claims, 13);
    claims.push(open);
    refused(&claims, 12);
}
