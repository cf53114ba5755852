//! A long walk over charts, claims, accesses and traces that change by a few bytes each time, from the known charts
//! on: the archive and the plain implementation agree at each step.

use charts::damage::scattered;
use charts::random::Random;
use compare::regions::any_region;
use compare::sizes::any_size;
use compare::Archive;
use reference::sizes::Teams;
use reference::witnessed::witnessed;
use reference::{calls, known, locks, races, sizes};

const STEPS: usize = 60_000;
/// Pairs of nodes 1 and 3.
const CLAIMS: [u8; 4] = [1, 3, 3, 3];
/// Accesses at nodes 1 and 3 to one variable.
const LIST: [u8; 12] = [1, 1, 0, 0, 3, 0, 0, 0, 3, 1, 0, 0];
/// A finished run of two threads over chart K.
const TRACE: [u8; 16] = [0, 1, 1, 1, 0, 2, 1, 2, 0, 3, 1, 3, 0, 4, 1, 4];
const SEED: u64 = 13;

/// What is handed over at a step.
#[derive(Debug)]
struct Asked {
    chart: Vec<u8>,
    region: usize,
    size: usize,
    claims: Vec<u8>,
    list: Vec<u8>,
    trace: Vec<u8>,
}

/// Changes a list by a few bytes, or takes the first one again.
fn change(random: &mut Random, list: &mut Vec<u8>, first: &[u8]) {
    *list = match random.below(4) {
        0 => first.to_vec(),
        _ => scattered(random, list.clone()),
    };
}

impl Asked {
    fn change(&mut self, random: &mut Random, charts: &[Vec<u8>]) {
        self.chart = match random.below(6) {
            0 => charts[random.below(charts.len())].clone(),
            _ => scattered(random, self.chart.clone()),
        };
        self.region = any_region(random, &self.chart);
        self.size = any_size(random);
        change(random, &mut self.claims, &CLAIMS);
        change(random, &mut self.list, &LIST);
        change(random, &mut self.trace, &TRACE);
    }

    /// The calls that answer with a number alone. Gives the number of Admit.
    fn agree(&self, archive: &mut Archive) -> i64 {
        let (chart, claims, trace) = (&self.chart, &self.claims, &self.trace);
        let (region, size) = (self.region as u64, self.size as u64);
        let [a, b] = [claims[0], claims[1]].map(usize::from);
        let number = archive.admit(chart);
        for (ours, theirs) in [
            (number, calls::admit(chart)),
            (
                archive.judge(chart, self.region, claims),
                calls::judge(chart, region, claims),
            ),
            (
                archive.pair(chart, self.region, a, b),
                calls::pair(chart, region, a as u64, b as u64),
            ),
            (
                archive.judge_sized(chart, self.region, self.size, claims),
                sizes::judge(chart, region, size, claims),
            ),
            (
                archive.witnessed(chart, self.region, 2, trace, [a, b]),
                witnessed(chart, region, 2, trace, a as u64, b as u64),
            ),
        ] {
            assert_eq!(ours, theirs, "{self:02X?}");
        }
        number
    }

    /// Calls that write.
    fn agree_written(&self, archive: &mut Archive) {
        let (chart, list, region) = (&self.chart, &self.list, self.region as u64);
        let (mut ours, mut theirs) = ([0; 7], [0; 7]);
        assert_eq!(
            archive.races(chart, self.region, list, &mut ours),
            races::write(chart, region, list, &mut theirs),
            "{self:02X?}"
        );
        assert_eq!(ours, theirs, "{self:02X?}");
        let teams = Teams::Of(self.size as u64);
        assert_eq!(
            archive.locks_sized(chart, self.region, self.size, &mut ours),
            locks::write(chart, region, teams, &mut theirs),
            "{self:02X?}"
        );
        assert_eq!(ours, theirs, "{self:02X?}");
    }
}

#[test]
fn mutated_charts_and_claims() {
    let mut random = Random::new(SEED);
    let mut archive = Archive::new();
    let from = [
        known::chart_k(),
        known::chart_d(&[(5, 1)]),
        known::chart_x(&[]),
        known::chart_x(&[(7, 1)]),
        known::chart_y([1, 2], &[]),
        known::figure_2b(),
        known::chart_z(&[(6, 1)]),
        known::chart_w(),
        known::chart_t(1, &[]),
        known::chart_l(),
        known::chart_m(),
    ];
    let mut asked = Asked {
        chart: from[0].clone(),
        region: 0,
        size: 0,
        claims: CLAIMS.to_vec(),
        list: LIST.to_vec(),
        trace: TRACE.to_vec(),
    };
    let mut admitted = 0;
    for _ in 0..STEPS {
        asked.change(&mut random, &from);
        admitted += usize::from(asked.agree(&mut archive) > 0);
        asked.agree_written(&mut archive);
    }
    assert!(admitted > STEPS / 10, "{admitted} of {STEPS} admitted");
}
