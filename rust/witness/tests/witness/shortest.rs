//! Runs on small charts against the shortest of all, found by a search over states; and nevers that hold in every run against
//! all states.

use crate::generated::answers;
use bohrali::{Answer, Region, Size};
use charts::random::Random;
use charts::valid::{valid, Shape};
use explore::search::{meetings, Meetings};
use explore::shortest::Shortest;
use explore::team::Team;
use reference::refusals::decode_checked;
use region::Table;
use std::io::Write;
use witness::plan::Planner;
use witness::run::Draft;
use witness::view::View;
use witness::{in_every_run, Naming};

const SEED: u64 = 2_026_111_737;
const THREADS: usize = 2;
const ENCOUNTERS: u8 = 3;
const MOST_STATES: usize = 20_000;

#[derive(Default)]
struct Tally {
    charts: usize,
    runs: usize,
    shortest: usize,
    /// Entries of the runs, and of the shortest.
    entries: [u64; 2],
    /// Runs that break a lock where none need be broken.
    missed: usize,
    /// Nevers that a run which does not finish meets.
    hanging: usize,
}

impl Tally {
    /// None where there are too many states.
    fn chart(&mut self, bytes: &[u8]) -> Option<()> {
        let chart = decode_checked(bytes).expect("a valid chart");
        for region in chart.regions() {
            let read = chart.read_for(region);
            let team = || Team::new(&read.chart, THREADS, ENCOUNTERS);
            let known = Known {
                met: meetings(&team(), MOST_STATES)?,
                free: Shortest::of(&team(), MOST_STATES)?,
                locked: Shortest::of(&team().with_locks(), MOST_STATES)?,
                place: &read.place,
            };
            let view = View::read(bytes, Region::from(usize::from(region))).expect("a region");
            let mut planner = Planner::new(&view, THREADS).expect("a team of two");
            for (a, b, answer) in answers(&view, Some(Size(THREADS))) {
                let draft = planner.draft(a, b);
                match answer {
                    Answer::Concurrent => self.run(&known, draft.expect("a run"), a, b),
                    never => {
                        assert!(draft.is_none(), "{a} {b}: {never:?}");
                        self.never(&known, &view, never, a, b);
                    }
                }
            }
        }
        Some(())
    }

    fn run(&mut self, known: &Known, run: Draft, a: usize, b: usize) {
        let [x, y] = known.places(a, b);
        let (free, locked) = (known.free.entries(x, y), known.locked.entries(x, y));
        let least = if run.keeps_locks { locked } else { free };
        let (least, length) = (least.expect("a run"), run.trace.len() as u32);
        assert!(least <= length, "{a} {b}: {length} for {least}");
        self.missed += usize::from(!run.keeps_locks && locked.is_some());
        self.runs += 1;
        self.shortest += usize::from(length == least);
        self.entries[0] += u64::from(length);
        self.entries[1] += u64::from(least);
    }

    fn never(&mut self, known: &Known, view: &View, never: Answer, a: usize, b: usize) {
        let [x, y] = known.places(a, b);
        assert!(known.free.entries(x, y).is_none(), "{a} {b}: {never:?}");
        let table = Table::of(view.chart.clone());
        let naming = Naming {
            view,
            table: &table,
        };
        if known.met.all[x] >> y & 1 == 1 {
            assert!(!in_every_run(&naming, never, a, b), "{a} {b}: {never:?}");
            self.hanging += 1;
        }
    }
}

/// What all runs of a region's team do.
struct Known<'a> {
    met: Meetings,
    free: Shortest,
    locked: Shortest,
    place: &'a [Option<usize>],
}

impl Known<'_> {
    /// Two nodes by the numbers that they have in the region.
    fn places(&self, a: usize, b: usize) -> [usize; 2] {
        [a, b].map(|v| self.place[v].expect("a node of the region"))
    }
}

fn compare_charts(count: usize) -> Tally {
    let mut random = Random::new(SEED);
    let mut tally = Tally::default();
    for _ in 0..count {
        let shape = match random.below(5) {
            0 => Shape::locked(&mut random),
            _ => Shape::small(&mut random),
        };
        let bytes = valid(&mut random, &shape).bytes();
        tally.charts += usize::from(tally.chart(&bytes).is_some());
    }
    let line = format!(
        "{} charts, {} runs, {} of them shortest; {} entries for {}; locks broken where none need be: {}; nevers met by runs that do not \
         finish: {}",
        tally.charts, tally.runs, tally.shortest, tally.entries[0], tally.entries[1], tally.missed, tally.hanging
    );
    writeln!(std::io::stderr(), "{line}").expect("standard error is open");
    tally
}

#[test]
fn runs_are_mostly_shortest() {
    let tally = compare_charts(600);
    assert!(tally.hanging > 0);
    assert!(tally.shortest * 100 >= tally.runs * 97);
}

#[test]
#[ignore = "takes minutes"]
fn runs_are_mostly_shortest_on_many_charts() {
    let tally = compare_charts(30_000);
    assert!(tally.shortest * 100 >= tally.runs * 97);
}
