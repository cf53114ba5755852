//! Every call of the archive against the second implementation: results, and every lent byte, on
//! valid, damaged and random charts, for any region and size, with buffers longer and shorter than the
//! result.

use bohrali::limits::MOST_CONSTRUCTS;
use charts::races::{accesses, wrong_accesses};
use charts::random::Random;
use compare::regions::{any_region, OUTERMOST};
use compare::sizes::any_size;
use compare::Archive;
use reference::refusals::decode_checked;
use reference::replay::MOST_THREADS;
use reference::sizes::Teams;
use reference::witnessed::witnessed;
use reference::{calls, distances, locks, races, sizes};
use std::io::Write;

const CHARTS: usize = 100_000;
/// Sheet and locks are asked for of every so many charts: the plain implementation takes its time over them.
const SHEETS: usize = 8;
const SEED: u64 = 2_026_111_501;

/// What a lent buffer holds before a call.
const FILL: u8 = 0xA5;

/// The archive, the region and the size that are asked about, and how often each outcome was seen, 0 for
/// what is not refused.
struct Comparison {
    archive: Archive,
    region: usize,
    size: usize,
    outcomes: [usize; 24],
}

impl Comparison {
    fn new() -> Comparison {
        Comparison {
            archive: Archive::new(),
            region: OUTERMOST,
            size: 2,
            outcomes: [0; 24],
        }
    }

    fn agree(&mut self, call: &str, chart: &[u8], ours: i64, theirs: i64) {
        let (region, size) = (self.region, self.size);
        assert_eq!(
            ours, theirs,
            "{call}, region {region}, size {size}, chart {chart:02X?}"
        );
        self.outcomes[(-ours).max(0) as usize] += 1;
    }

    /// Admits the chart and gives its nodes, or some number for a chart that is refused.
    fn admit(&mut self, chart: &[u8]) -> usize {
        let number = self.archive.admit(chart);
        self.agree("admit", chart, number, calls::admit(chart));
        match number {
            1.. => (number % 256) as usize,
            _ => 5,
        }
    }

    fn phases(&mut self, chart: &[u8], room: usize) {
        let mut ours = vec![FILL; room];
        let number = self.archive.phases(chart, self.region, &mut ours);
        self.written("phases", chart, calls::phases, number, &ours);
    }

    fn distances(&mut self, chart: &[u8], room: usize) {
        let mut ours = vec![FILL; room];
        let number = self.archive.distances(chart, self.region, &mut ours);
        self.written("distances", chart, distances::write, number, &ours);
    }

    fn sheet(&mut self, chart: &[u8], room: usize) {
        let mut ours = vec![FILL; room];
        let number = self.archive.sheet(chart, self.region, &mut ours);
        self.written("sheet", chart, calls::sheet, number, &ours);
    }

    fn sheet_sized(&mut self, chart: &[u8], room: usize) {
        let mut ours = vec![FILL; room];
        let (region, size) = (self.region, self.size);
        let number = self.archive.sheet_sized(chart, region, size, &mut ours);
        let plain = |chart: &[u8], region: u64, out: &mut [u8]| {
            sizes::sheet(chart, region, size as u64, out)
        };
        self.written("sheet of a size", chart, plain, number, &ours);
    }

    fn locks(&mut self, chart: &[u8], room: usize) {
        let (region, size) = (self.region, self.size);
        let plain = |teams: Teams| {
            move |chart: &[u8], region: u64, out: &mut [u8]| locks::write(chart, region, teams, out)
        };
        let mut ours = vec![FILL; room];
        let number = self.archive.locks(chart, region, &mut ours);
        self.written("locks", chart, plain(Teams::OfAnySize), number, &ours);
        let mut ours = vec![FILL; room];
        let number = self.archive.locks_sized(chart, region, size, &mut ours);
        let plain = plain(Teams::Of(size as u64));
        self.written("locks of a size", chart, plain, number, &ours);
    }

    fn races(&mut self, chart: &[u8], list: &[u8], room: usize) {
        let mut ours = vec![FILL; room];
        let number = self.archive.races(chart, self.region, list, &mut ours);
        let plain =
            |chart: &[u8], region: u64, out: &mut [u8]| races::write(chart, region, list, out);
        self.written(&format!("races {list:?}"), chart, plain, number, &ours);
    }

    fn written(
        &mut self,
        call: &str,
        chart: &[u8],
        plain: impl Fn(&[u8], u64, &mut [u8]) -> i64,
        number: i64,
        ours: &[u8],
    ) {
        let mut theirs = vec![FILL; ours.len()];
        let expected = plain(chart, self.region as u64, &mut theirs);
        self.agree(call, chart, number, expected);
        assert_eq!(ours, theirs, "{call}, chart {chart:02X?}");
    }

    fn pair(&mut self, chart: &[u8], a: usize, b: usize) {
        let number = self.archive.pair(chart, self.region, a, b);
        let theirs = calls::pair(chart, self.region as u64, a as u64, b as u64);
        self.agree(&format!("pair {a} {b}"), chart, number, theirs);
        let (region, size) = (self.region, self.size);
        let number = self.archive.pair_sized(chart, region, size, a, b);
        let theirs = sizes::pair(chart, region as u64, size as u64, a as u64, b as u64);
        self.agree(&format!("sized pair {a} {b}"), chart, number, theirs);
    }

    fn witnessed(&mut self, chart: &[u8], trace: &[u8], team: usize, [a, b]: [usize; 2]) {
        let region = self.region;
        let number = self.archive.witnessed(chart, region, team, trace, [a, b]);
        let (region, team) = (region as u64, team as u64);
        let theirs = witnessed(chart, region, team, trace, a as u64, b as u64);
        let call = format!("witnessed {trace:?} of {team}: {a} {b}");
        self.agree(&call, chart, number, theirs);
    }

    fn judge(&mut self, chart: &[u8], claims: &[u8]) {
        let number = self.archive.judge(chart, self.region, claims);
        let theirs = calls::judge(chart, self.region as u64, claims);
        self.agree(&format!("judge {claims:?}"), chart, number, theirs);
        let (region, size) = (self.region, self.size);
        let number = self.archive.judge_sized(chart, region, size, claims);
        let theirs = sizes::judge(chart, region as u64, size as u64, claims);
        self.agree(&format!("sized judge {claims:?}"), chart, number, theirs);
    }

    /// The calls that take a list or a trace.
    fn ask_with_lists(&mut self, random: &mut Random, chart: &[u8], nodes: usize) {
        self.judge(chart, &claims(random, nodes));
        let list = any_accesses(random, nodes);
        let count = list.len() / races::ACCESS_BYTES;
        let room = random.pick(&rooms(count * (count + 1) / 2));
        self.races(chart, &list, room);
        let trace = any_trace(random, nodes);
        let team = random.below(MOST_THREADS + 2);
        let pair = [0; 2].map(|_| random.below(nodes));
        self.witnessed(chart, &trace, team, pair);
    }
}

/// Buffers for a result of so many bytes: none, one byte short, exact, and with a tail.
fn rooms(result: usize) -> [usize; 4] {
    [0, result.saturating_sub(1), result, result + 37]
}

/// Claims of which most name nodes of the chart, and some do not.
fn claims(random: &mut Random, nodes: usize) -> Vec<u8> {
    let length = random.below(12);
    let bound = nodes + usize::from(random.percent(10));
    (0..length).map(|_| random.below(bound) as u8).collect()
}

/// A short list of accesses to any nodes, one in five of them wrong in some way.
fn any_accesses(random: &mut Random, nodes: usize) -> Vec<u8> {
    let all: Vec<u8> = (1..nodes as u8 - 1).collect();
    let named = if all.is_empty() { &[0][..] } else { &all };
    let count = random.between(1, 5);
    let list = accesses(random, named, count, 3);
    match random.percent(20) {
        true => wrong_accesses(random, list),
        false => list,
    }
}

/// A few entries, most of them of threads and nodes that there are; one in ten traces ends within an entry.
fn any_trace(random: &mut Random, nodes: usize) -> Vec<u8> {
    let entry = |random: &mut Random| [random.below(3) as u8, random.below(nodes + 1) as u8];
    let entries: Vec<[u8; 2]> = (0..random.below(6)).map(|_| entry(random)).collect();
    let mut trace = entries.concat();
    if random.percent(10) {
        trace.push(random.byte());
    }
    trace
}

#[test]
fn all_calls_agree() {
    let mut random = Random::new(SEED);
    let mut comparison = Comparison::new();
    for index in 0..CHARTS {
        let (_, chart) = charts::draw(&mut random);
        let nodes = comparison.admit(&chart);
        comparison.region = any_region(&mut random, &chart);
        comparison.size = any_size(&mut random);
        for room in rooms(calls::PHASE_BYTES * nodes) {
            comparison.phases(&chart, room);
        }
        for room in rooms(nodes) {
            comparison.distances(&chart, room);
        }
        comparison.pair(&chart, random.below(nodes), random.below(nodes));
        comparison.ask_with_lists(&mut random, &chart, nodes);
        if index % SHEETS == 0 {
            for room in rooms(nodes * nodes) {
                comparison.sheet(&chart, room);
                comparison.sheet_sized(&chart, room);
            }
            let constructs = decode_checked(&chart).map_or(3, |x| x.constructs.len());
            for room in rooms(constructs) {
                comparison.locks(&chart, room);
            }
        }
    }
    let outcomes = comparison.outcomes;
    let line = format!("{CHARTS} charts from seed {SEED}; outcomes 0 to 23: {outcomes:?}");
    writeln!(std::io::stderr(), "{line}").expect("standard error is open");
    let mut rows = (0..=13).chain(20..=23);
    assert!(rows.all(|row| outcomes[row] > 500), "{line}");
}

#[test]
fn benchmark_charts_agree() {
    let mut comparison = Comparison::new();
    let each = charts::benchmark::all().into_iter();
    let each = each.chain(charts::benchmark::criticals());
    for (_, chart) in each.chain(charts::benchmark::sorts()) {
        let nodes = comparison.admit(&chart);
        comparison.phases(&chart, calls::PHASE_BYTES * nodes);
        comparison.distances(&chart, nodes);
        comparison.sheet(&chart, nodes * nodes);
        comparison.sheet_sized(&chart, nodes * nodes);
        comparison.locks(&chart, MOST_CONSTRUCTS);
    }
}
