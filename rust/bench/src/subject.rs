//! What the calls are made with: one chart again and again, or several in turn.

use crate::calls::Calls;
use crate::timing::least;
use bohrali::layout::{BYTES_ACCESS, BYTES_ENTRY, BYTES_PHASES};
use bohrali::limits::{MOST_ACCESSES, MOST_CONSTRUCTS};
use charts::benchmark;
use charts::races::accesses;
use charts::random::Random;
use charts::traces::legal;
use reference::answers::Rules;
use reference::regions::{read, OUTERMOST};
use std::hint::black_box;

const CLAIMS: usize = 1_024;
/// Accesses to each of the charts in turn, and the variables of all lists.
const FEW_ACCESSES: usize = 64;
const VARIABLES: usize = 32;
/// The threads of traces, of which the longest of so many is taken: some runs soon hang.
const TEAM: usize = 2;
const DRAWN: u64 = 16;

/// One of the calls.
#[derive(Clone, Copy)]
pub enum Call {
    Admit,
    Phases,
    Distances,
    Pair,
    Sheet,
    Judge,
    Races,
    Locks,
    Witnessed,
}

impl Call {
    /// Whether an implementation has it.
    pub fn is_in(self, calls: &Calls) -> bool {
        match self {
            Call::Distances => calls.distances.is_some(),
            Call::Races => calls.races.is_some(),
            Call::Locks => calls.locks.is_some(),
            Call::Witnessed => calls.witnessed.is_some(),
            _ => true,
        }
    }

    pub const ALL: [Call; 9] = [
        Call::Admit,
        Call::Phases,
        Call::Distances,
        Call::Pair,
        Call::Sheet,
        Call::Judge,
        Call::Races,
        Call::Locks,
        Call::Witnessed,
    ];
}

/// A chart with what is asked about it.
struct Asked {
    chart: Vec<u8>,
    nodes: usize,
    /// A node that is no barrier.
    node: usize,
    /// Claims that all hold; none where no pair of the chart is excluded.
    claims: Vec<u8>,
    accesses: Vec<u8>,
    /// A run of a team as far as it goes.
    trace: Vec<u8>,
}

/// What a chart that is refused is asked with; nothing is written for it.
fn refused(chart: Vec<u8>) -> Asked {
    Asked {
        chart,
        nodes: 0,
        node: 1,
        claims: Vec::new(),
        accesses: Vec::new(),
        trace: Vec::new(),
    }
}

impl Asked {
    /// A chart with so many accesses, and as many entries at most.
    fn new(chart: Vec<u8>, count: usize) -> Asked {
        let Ok(region) = read(&chart, OUTERMOST.into()) else {
            return refused(chart);
        };
        let drawn = (0..DRAWN).map(|seed| legal(&mut Random::new(seed), &region, TEAM, count));
        let trace = drawn.max_by_key(Vec::len).unwrap_or_default();
        let rules = Rules::of(region.chart);
        let nodes = rules.chart.nodes.len();
        let open: Vec<usize> = (0..nodes).filter(|&x| !rules.chart.is_barrier(x)).collect();
        let pairs = open.iter().flat_map(|&a| open.iter().map(move |&b| (a, b)));
        let held = pairs.filter(|&(a, b)| rules.answer(a, b) != Rules::CONCURRENT);
        let held: Vec<u8> = held.flat_map(|(a, b)| [a as u8, b as u8]).collect();
        let named: Vec<u8> = open.iter().map(|&x| x as u8).collect();
        Asked {
            chart,
            nodes,
            node: open[open.len() / 2],
            claims: held.into_iter().cycle().take(2 * CLAIMS).collect(),
            accesses: accesses(&mut Random::new(9), &named, count, VARIABLES),
            trace,
        }
    }

    #[inline]
    fn ask(&self, call: Call, by: &Calls, out: &mut [u8]) -> i64 {
        let chart = black_box(&self.chart[..]);
        match call {
            Call::Admit => (by.admit)(chart),
            Call::Phases => (by.phases)(chart, &mut out[..BYTES_PHASES * self.nodes]),
            Call::Distances => by
                .distances
                .map_or(0, |distances| distances(chart, &mut out[..self.nodes])),
            Call::Pair => (by.pair)(chart, self.node, self.node),
            Call::Sheet => (by.sheet)(chart, &mut out[..self.nodes * self.nodes]),
            Call::Judge => (by.judge)(chart, &self.claims),
            Call::Races => by.races.map_or(0, |races| {
                races(chart, &self.accesses, &mut out[..self.pairs()])
            }),
            Call::Locks => by
                .locks
                .map_or(0, |locks| locks(chart, &mut out[..MOST_CONSTRUCTS])),
            Call::Witnessed => by.witnessed.map_or(0, |witnessed| {
                witnessed(chart, &self.trace, TEAM, [self.node; 2])
            }),
        }
    }

    /// The pairs of accesses.
    fn pairs(&self) -> usize {
        let count = self.accesses.len() / BYTES_ACCESS;
        count * (count + 1) / 2
    }
}

/// Charts that are asked in turn.
pub struct Subject {
    pub name: &'static str,
    charts: Vec<Asked>,
    /// The longest result of a chart, Phases', Sheet's or Races', or Locks' of any.
    room: usize,
}

impl Subject {
    /// Charts, each with so many accesses.
    fn new(name: &'static str, charts: impl IntoIterator<Item = Vec<u8>>, count: usize) -> Subject {
        let charts = charts.into_iter().map(|chart| Asked::new(chart, count));
        let charts: Vec<Asked> = charts.collect();
        let result = |x: &Asked| (x.nodes * x.nodes.max(BYTES_PHASES)).max(x.pairs());
        let room = charts.iter().map(result).fold(MOST_CONSTRUCTS, usize::max);
        Subject { name, charts, room }
    }

    /// The charts that are asked again and again, each by itself.
    pub fn each() -> Vec<Subject> {
        let charts = benchmark::all().into_iter().chain(benchmark::sorts());
        charts
            .map(|(name, chart)| Subject::new(name, [chart], MOST_ACCESSES))
            .collect()
    }

    /// The charts that are asked in turn.
    pub fn in_turn() -> [Subject; 2] {
        [
            ("64 charts in turn", benchmark::in_turn()),
            ("64 with constructs in turn", benchmark::sorts_in_turn()),
        ]
        .map(|(name, charts)| Subject::new(name, charts, FEW_ACCESSES))
    }

    /// The regions that a build asks about, each another chart.
    pub fn regions(charts: Vec<Vec<u8>>) -> Subject {
        Subject::new("regions", charts, FEW_ACCESSES)
    }

    /// Nanoseconds to read all bytes of one chart.
    pub fn reading(&self) -> [f64; 1] {
        let all = least([true], |_| {
            let sum = |chart: &[u8]| chart.iter().map(|&byte| i64::from(byte)).sum::<i64>();
            let charts = self.charts.iter();
            charts.map(|asked| sum(black_box(&asked.chart))).sum()
        });
        all.map(|time| time / self.charts.len() as f64)
    }

    /// Nanoseconds of one call on one chart by each implementation that has it; the first has all calls.
    pub fn times<const N: usize>(&self, call: Call, by: [&Calls; N]) -> [f64; N] {
        let mut out = vec![0; self.room];
        let all = least(by.map(|calls| call.is_in(calls)), |index| {
            self.charts.iter().fold(0i64, |sum, asked| {
                let number = asked.ask(call, by[index], &mut out);
                sum.wrapping_mul(31).wrapping_add(number)
            })
        });
        all.map(|time| time / self.charts.len() as f64)
    }

    /// The call's name; with the number of claims or accesses where there is one list.
    pub fn name_of(&self, call: Call) -> String {
        match (call, &self.charts[..]) {
            (Call::Admit, _) => "admit".into(),
            (Call::Phases, _) => "phases".into(),
            (Call::Distances, _) => "distances".into(),
            (Call::Pair, _) => "pair".into(),
            (Call::Sheet, _) => "sheet".into(),
            (Call::Judge, [one]) => format!("judge {}", one.claims.len() / 2),
            (Call::Judge, _) => "judge".into(),
            (Call::Races, [one]) => format!("races {}", one.accesses.len() / BYTES_ACCESS),
            (Call::Races, _) => "races".into(),
            (Call::Locks, _) => "locks".into(),
            (Call::Witnessed, [one]) => format!("witnessed {}", one.trace.len() / BYTES_ENTRY),
            (Call::Witnessed, _) => "witnessed".into(),
        }
    }
}
