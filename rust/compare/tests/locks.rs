//! Locks that can be dropped, by the archive: known bytes; drawn and damaged charts in each region, for teams of any
//! size and of sizes that tell something, with buffers about the result; what Sheet and Phases say of the same nodes; and
//! the refusals in their order.

use bohrali::layout::BYTES_PHASES;
use bohrali::limits::MOST_CONSTRUCTS;
use bohrali::Lock;
use charts::locks::branching;
use charts::more_edges::with_more_edges;
use charts::races::LOCKED_KINDS;
use charts::random::Random;
use charts::valid::{valid, Shape};
use compare::regions::{any_region, regions_of, BEYOND as NO_REGIONS, OUTERMOST};
use compare::sizes::{any_size, BEYOND, SIZES};
use compare::Archive;
use reference::builder::ChartBuilder;
use reference::chart::Construct;
use reference::known::*;
use reference::locks;
use reference::regions::{read, Region};
use reference::sizes::Teams;

const CHARTS: usize = 3_000;
const FILL: u8 = 0x5A;

/// The call, with a size or without.
fn write(archive: &mut Archive, chart: &[u8], region: usize, teams: Teams, out: &mut [u8]) -> i64 {
    match teams {
        Teams::OfAnySize => archive.locks(chart, region, out),
        Teams::Of(size) => archive.locks_sized(chart, region, size as usize, out),
    }
}

/// Number and bytes agree, with buffers about the result. Gives what was written.
fn agree(archive: &mut Archive, chart: &[u8], region: usize, teams: Teams) -> Vec<u8> {
    let whole = read(chart, region as u64);
    let length = whole.map_or(3, |region| region.constructs.len());
    let mut result = Vec::new();
    for room in [0, length.saturating_sub(1), length, length + 13] {
        let (mut ours, mut theirs) = (vec![FILL; room], vec![FILL; room]);
        let number = write(archive, chart, region, teams, &mut ours);
        let expected = locks::write(chart, region as u64, teams, &mut theirs);
        assert_eq!(number, expected, "{region}, {teams:?}, {chart:02X?}");
        assert_eq!(ours, theirs, "{region}, {teams:?}, {chart:02X?}");
        result = ours[..number.max(0) as usize].to_vec();
    }
    result
}

#[test]
fn known_charts() {
    let mut archive = Archive::new();
    let any = Teams::OfAnySize;
    let critical = Construct::CRITICAL;
    let inner = nested(&[(Construct::PARALLEL, 0), (critical, 0)], true).bytes();
    let around = nested(&[(critical, 0), (Construct::PARALLEL, 0)], true).bytes();
    for (chart, region, teams, expected) in [
        (&chart_l(), OUTERMOST, any, &[255, 2, 0][..]),
        (&chart_l(), OUTERMOST, Teams::Of(1), &[255, 2, 2]),
        (&chart_l(), OUTERMOST, Teams::Of(1_024), &[255, 2, 0]),
        (&chart_m(), OUTERMOST, any, &[255, 1, 255, 1]),
        (&chart_m(), OUTERMOST, Teams::Of(1), &[255, 2, 255, 2]),
        (&chart_m(), OUTERMOST, Teams::Of(2), &[255, 1, 255, 1]),
        (&chart_s(critical, &[]), OUTERMOST, any, &[0]),
        (&chart_s(critical, &[]), OUTERMOST, Teams::Of(1), &[2]),
        (&chart_x(&[]), OUTERMOST, any, &[255, 255, 255]),
        (&chart_k(), OUTERMOST, any, &[]),
        (&inner, OUTERMOST, any, &[255, 255]),
        (&inner, 0, any, &[255, 0]),
        (&around, OUTERMOST, any, &[0, 255]),
        (&around, 1, any, &[255, 255]),
    ] {
        let written = agree(&mut archive, chart, region, teams);
        assert_eq!(written, expected, "{region}, {teams:?}");
    }
}

/// A chart with criticals, small or large, or of any other kind.
fn drawn(random: &mut Random, turn: usize) -> ChartBuilder {
    let shape = match turn % 12 {
        0..4 => Shape::locked(random),
        4 => Shape::nested(random),
        5 => Shape::small(random),
        6 => Shape::large(random),
        7 => Shape {
            kinds: LOCKED_KINDS,
            ..Shape::large(random)
        },
        8 => {
            let branches = random.between(1, 24);
            return branching(random, branches);
        }
        _ => return branching(random, 2),
    };
    valid(random, &shape)
}

#[test]
fn drawn_charts_in_each_region() {
    let mut archive = Archive::new();
    let mut random = Random::new(14);
    let mut seen = [0usize; 4];
    for turn in 0..CHARTS {
        let chart = drawn(&mut random, turn).bytes();
        for region in regions_of(&chart).into_iter().rev().take(3) {
            let written = agree(&mut archive, &chart, region, Teams::OfAnySize);
            for byte in written {
                seen[Lock::of(byte).map_or(3, |lock| lock as usize)] += 1;
            }
            let size = any_size(&mut random);
            agree(&mut archive, &chart, region, Teams::Of(size as u64));
        }
    }
    assert!(seen.iter().all(|&times| times > 500), "{seen:?}");
}

#[test]
fn known_charts_at_all_sizes() {
    let mut archive = Archive::new();
    let chain = [(Construct::MASTER, 0), (Construct::CRITICAL, 3)];
    let (apart, _) = in_a_row(&[&chain, &chain]);
    let masters = reference::regions::read_outermost(&apart).expect("a chart");
    let mut masked = ChartBuilder::from_chart(&masters);
    masked.edition = 2;
    (masked.constructs[0].filter, masked.constructs[2].filter) = (256, 1_023);
    for chart in [apart, masked.bytes(), chart_l(), chart_m(), chart_z(&[])] {
        for region in regions_of(&chart) {
            for size in SIZES.into_iter().chain(BEYOND) {
                agree(&mut archive, &chart, region, Teams::Of(size as u64));
            }
        }
    }
    let bytes = [1, 2, 256, 257, 1_023, 1_024].map(|size| {
        let written = agree(&mut archive, &masked.bytes(), OUTERMOST, Teams::Of(size));
        written[1]
    });
    assert_eq!(bytes, [2, 2, 2, 2, 2, 0]);
}

/// Charts that are refused, most of them, in regions and with sizes that are.
#[test]
fn damaged_charts() {
    let mut archive = Archive::new();
    let mut random = Random::new(15);
    for _ in 0..2 * CHARTS {
        let (_, chart) = charts::draw(&mut random);
        let region = any_region(&mut random, &chart);
        agree(&mut archive, &chart, region, Teams::OfAnySize);
        let size = any_size(&mut random) as u64;
        agree(&mut archive, &chart, region, Teams::Of(size));
    }
}

/// What Sheet and Phases say of the nodes inside criticals.
struct Told {
    region: Region,
    sheet: Vec<u8>,
    phases: Vec<u8>,
}

impl Told {
    fn by(archive: &mut Archive, chart: &[u8], number: usize, teams: Teams) -> Told {
        let region = read(chart, number as u64).expect("a region");
        let nodes = region.place.len();
        let (mut sheet, mut phases) = (vec![0; nodes * nodes], vec![0; BYTES_PHASES * nodes]);
        match teams {
            Teams::OfAnySize => archive.sheet(chart, number, &mut sheet),
            Teams::Of(size) => archive.sheet_sized(chart, number, size as usize, &mut sheet),
        };
        archive.phases(chart, number, &mut phases);
        Told {
            region,
            sheet,
            phases,
        }
    }

    /// The nodes inside criticals that pass a test, by their numbers in the whole chart.
    fn inside(&self, wanted: impl Fn(usize) -> bool) -> Vec<usize> {
        let chart = &self.region.chart;
        let is_inside = |place: usize| {
            let mut around = chart.enclosing(place).into_iter();
            around.any(|c| chart.constructs[c].kind == Construct::CRITICAL && wanted(c))
        };
        let places = self.region.place.iter().enumerate();
        places
            .filter(|(_, place)| place.is_some_and(is_inside))
            .map(|(node, _)| node)
            .collect()
    }

    fn starts(&self, node: usize) -> u64 {
        let record = &self.phases[BYTES_PHASES * node..];
        u64::from_le_bytes(record[..8].try_into().expect("eight bytes"))
    }

    /// Whether an answer 0 is among the pairs of a critical, and whether a 1 is that is about runs that finish.
    fn pairs(&self, critical: usize) -> (bool, bool) {
        let name = |c: usize| self.region.chart.constructs[c].name;
        let inside = self.inside(|c| c == critical);
        let named = self.inside(|c| name(c) == name(critical));
        let (mut met, mut unfinished) = (false, false);
        for &x in &inside {
            for &y in &named {
                let answer = self.sheet[x * self.region.place.len() + y];
                met |= answer == 0;
                unfinished |= answer == 1 && self.starts(x) & self.starts(y) != 0;
            }
        }
        (met, unfinished)
    }

    /// A lock is needed exactly where the sheet has a 0. Otherwise it can be dropped always, but where a never is about runs
    /// that finish; and there too, where another rule excludes each such pair as well.
    fn fits(&self, construct: usize, byte: u8) -> bool {
        let is_critical = |&c: &usize| self.region.chart.constructs[c].kind == Construct::CRITICAL;
        let critical = self.region.constructs[construct].filter(is_critical);
        match critical.map(|c| self.pairs(c)) {
            None => byte == Lock::NO_CRITICAL,
            Some((true, _)) => Lock::of(byte) == Some(Lock::Needed),
            Some((false, false)) => Lock::of(byte) == Some(Lock::DroppableAlways),
            Some((false, true)) => Lock::of(byte).is_some_and(|lock| lock != Lock::Needed),
        }
    }
}

#[test]
fn bytes_are_told_by_sheet_and_phases() {
    let mut archive = Archive::new();
    let mut random = Random::new(16);
    for turn in 0..CHARTS {
        let chart = drawn(&mut random, turn).bytes();
        let number = random.pick(&regions_of(&chart));
        let teams = match random.below(6) {
            0 => Teams::Of(random.between(1, 4) as u64),
            _ => Teams::OfAnySize,
        };
        let told = Told::by(&mut archive, &chart, number, teams);
        let mut out = vec![FILL; told.region.constructs.len()];
        write(&mut archive, &chart, number, teams, &mut out);
        for (construct, &byte) in out.iter().enumerate() {
            let fits = told.fits(construct, byte);
            assert!(
                fits,
                "{number}, {teams:?}, {construct}: {byte}, {chart:02X?}"
            );
        }
    }
}

/// A lock that can be dropped with more edges can be without them, and for teams of any size for each size.
#[test]
fn fewer_edges_and_named_sizes_drop_more() {
    let mut archive = Archive::new();
    let mut random = Random::new(17);
    for turn in 0..CHARTS {
        let chart = match turn % 2 {
            0 => branching(&mut random, 2),
            _ => {
                let shape = Shape::locked(&mut random);
                valid(&mut random, &shape)
            }
        };
        let larger = with_more_edges(&mut random, &chart, 20);
        let size = random.between(1, 4);
        for region in regions_of(&chart.bytes()) {
            let mut bytes = [[FILL; MOST_CONSTRUCTS]; 3];
            let [loose, tight, sized] = &mut bytes;
            archive.locks(&larger.bytes(), region, loose);
            archive.locks(&chart.bytes(), region, tight);
            archive.locks_sized(&chart.bytes(), region, size, sized);
            let rising = (0..MOST_CONSTRUCTS).all(|c| loose[c] <= tight[c] && tight[c] <= sized[c]);
            assert!(rising, "{bytes:?}, {size}, {:02X?}", chart.bytes());
        }
    }
}

/// 23, then 11, then 21; nothing is written.
#[test]
fn refusals_in_order() {
    let mut archive = Archive::new();
    let chart = chart_l();
    let mut refused = |chart: &[u8], region: usize, teams: Teams, room: usize, row: i64| {
        let mut out = vec![FILL; room];
        let number = write(&mut archive, chart, region, teams, &mut out);
        assert_eq!(number, -row, "{region}, {teams:?}, {room} bytes");
        assert_eq!(out, vec![FILL; room]);
    };
    let any = Teams::OfAnySize;
    for teams in BEYOND.map(|size| Teams::Of(size as u64)) {
        refused(&chart[1..], 9, teams, 0, 4);
        for region in (0..3).chain(NO_REGIONS) {
            refused(&chart, region, teams, 0, 23);
            refused(&chart, region, teams, 3, 23);
            refused(&chart, region, any, 2, 23);
        }
        for (room, row) in [(0, 11), (2, 11), (3, 21), (40, 21)] {
            refused(&chart, OUTERMOST, teams, room, row);
        }
        refused(&chart_k(), OUTERMOST, teams, 0, 21);
    }
    for teams in [any, Teams::Of(1), Teams::Of(1_024)] {
        refused(&chart, OUTERMOST, teams, 0, 11);
        refused(&chart, OUTERMOST, teams, 2, 11);
    }
    assert_eq!(archive.locks(&chart_k(), OUTERMOST, &mut []), 0);
}
