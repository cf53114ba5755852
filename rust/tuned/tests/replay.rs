//! The tuned replay against the second implementation: what it says, the records of the threads, the sheet, and whether
//! a trace shows two nodes.

use charts::benchmark::rings;
use charts::random::Random;
use charts::traces::{changed, legal, round};
use reference::builder::ChartBuilder;
use reference::chart::Construct;
use reference::known::*;
use reference::regions::{read, OUTERMOST};
use reference::replay::{self, Outcome, MOST_THREADS};
use reference::witnessed::witnessed;
use tuned::replay::{Record, Replayed};

/// Stands where nothing may be written.
const UNTOUCHED: u8 = 7;

/// A record by what both have: the node, the counts and the sections taken.
type Plain = (usize, Vec<u64>, Vec<bool>);

fn plain(record: &Record, constructs: usize) -> Plain {
    let counts = record.counts.to_vec();
    assert_eq!(counts[constructs..], [0; 48][constructs..]);
    assert_eq!(record.taken >> constructs, 0);
    let taken = (0..constructs).map(|c| record.taken >> c & 1 == 1);
    let node = usize::from(record.node);
    (node, counts[..constructs].to_vec(), taken.collect())
}

/// Holds one call to the second implementation's, in a buffer with room for so many bytes; gives what it says,
/// or the refusal.
fn assert_alike(chart: &[u8], trace: &[u8], team: usize, room: usize) -> Result<Outcome, u8> {
    let mut records = [Record::BLANK; MOST_THREADS];
    let mut out = vec![UNTOUCHED; room];
    let tuned = tuned::replay::replay(chart, trace, team, &mut records, &mut out);
    let said = tuned.map(|said| match said {
        Replayed::Finished => Outcome::Finished,
        Replayed::Unfinished => Outcome::Unfinished,
        Replayed::Forbidden(index) => Outcome::Forbidden(index),
    });
    let whole = replay::replay(chart, OUTERMOST.into(), trace, team);
    // the second implementation makes its own room
    let expected = whole.and_then(|x| {
        if x.sheet.len() <= room {
            Ok(x)
        } else {
            Err(11)
        }
    });
    let case = || format!("team {team}, {trace:?}, {chart:02X?}");
    match expected {
        Err(refusal) => {
            assert_eq!(said, Err(refusal), "{}", case());
            assert_eq!(out, vec![UNTOUCHED; room], "{}", case());
        }
        Ok(expected) => {
            assert_eq!(said, Ok(expected.outcome), "{}", case());
            let constructs = expected.records[0].counts.len();
            let ours = records[..team].iter().map(|x| plain(x, constructs));
            let theirs = expected.records.into_iter();
            let theirs = theirs.map(|x| (x.node, x.counts, x.taken));
            assert!(ours.eq(theirs), "{}", case());
            let (sheet, rest) = out.split_at(expected.sheet.len());
            assert_eq!(sheet, expected.sheet, "{}", case());
            assert!(rest.iter().all(|&x| x == UNTOUCHED), "{}", case());
        }
    }
    said
}

/// Holds what is said of two numbers to the second implementation.
fn assert_shown(chart: &[u8], trace: &[u8], team: usize, [a, b]: [usize; 2]) -> i64 {
    let shown = tuned::replay::witnessed(chart, trace, team, a, b);
    let [one, other] = [a, b].map(|x| x as u64);
    let expected = witnessed(chart, OUTERMOST.into(), team as u64, trace, one, other);
    assert_eq!(
        shown, expected,
        "{a} {b}, team {team}, {trace:?}, {chart:02X?}"
    );
    shown
}

/// Runs as far as they go, most of them with an entry changed, on charts of all sizes and some that are refused;
/// now and then a wrong team, or no room.
#[test]
fn drawn_traces() {
    const TRACES: usize = 30_000;
    let mut random = Random::new(2_026_111_612);
    let (mut outcomes, mut shown) = ([0usize; 5], 0);
    for turn in 0..TRACES {
        let chart = match turn % 16 {
            0 => charts::draw(&mut random).1,
            1 => charts::large(&mut random),
            _ => charts::small(&mut random),
        };
        let team = random.between(1, MOST_THREADS);
        let most = random.pick(&[10, 40, 200]);
        let (mut trace, nodes) = match read(&chart, OUTERMOST.into()) {
            Ok(region) => {
                let trace = legal(&mut random, &region, team, most);
                (trace, region.place.len())
            }
            Err(_) => (vec![0, 1], 12),
        };
        if random.percent(60) {
            trace = changed(&mut random, &trace, team, nodes);
        }
        let odd = random.below(100);
        let team = if odd < 3 { random.below(11) } else { team };
        let room = nodes * nodes - usize::from(odd > 97) + odd % 3;
        let outcome = match assert_alike(&chart, &trace, team, room) {
            Ok(Outcome::Finished) => 0,
            Ok(Outcome::Unfinished) => 1,
            Ok(Outcome::Forbidden(_)) => 2,
            Err(11 | 22) => 3,
            Err(_) => 4,
        };
        outcomes[outcome] += 1;
        let pair = [0; 2].map(|_| random.below(nodes + 1));
        shown += usize::from(assert_shown(&chart, &trace, team, pair) == 1);
    }
    assert!(outcomes.iter().all(|&x| x > TRACES / 60), "{outcomes:?}");
    assert!(shown > TRACES / 60, "{shown}");
}

/// A trace, and its every start with another last entry, of a team's thread or none and to a node or none.
fn assert_all_ends(chart: &[u8], trace: &[u8], team: usize, nodes: usize) -> bool {
    let room = nodes * nodes;
    for last in (0..trace.len()).step_by(2) {
        let mut start = trace[..last + 2].to_vec();
        for thread in 0..=team {
            for node in 0..=nodes {
                start[last..].copy_from_slice(&[thread as u8, node as u8]);
                _ = assert_alike(chart, &start, team, room);
            }
        }
    }
    assert_alike(chart, trace, team, room) == Ok(Outcome::Finished)
}

/// An ordered in a parallel in a critical in an ordered: who is inside it is inside the outer one.
fn ordered_in_ordered() -> Vec<u8> {
    let mut chart = ChartBuilder::new();
    let kinds = [
        Construct::DO,
        Construct::ORDERED,
        Construct::CRITICAL,
        Construct::PARALLEL,
        Construct::DO,
        Construct::ORDERED,
    ];
    chart.barrier();
    for (number, kind) in kinds.into_iter().enumerate() {
        let parent = (number as u8).checked_sub(1);
        let own = chart.construct(kind, parent.unwrap_or(Construct::NONE), 0);
        chart.begin(own);
    }
    let innermost = chart.constructs.len() as u8 - 1;
    chart.plain(innermost);
    for own in (0..=innermost).rev() {
        chart.end(own);
    }
    chart.barrier();
    chart.row();
    chart.bytes()
}

#[test]
fn every_next_entry() {
    let charts = [
        chart_s(Construct::SINGLE, &[(3, 1)]),
        chart_s(Construct::MASTER, &[(3, 1)]),
        chart_s(Construct::CRITICAL, &[(3, 1)]),
        chart_d(&[(5, 1)]),
        chart_x(&[]),
        chart_y([1, 2], &[(6, 1)]),
        chart_z(&[]),
        chart_k(),
        ordered_in_ordered(),
    ];
    for (seed, chart) in charts.iter().enumerate() {
        let region = read(chart, OUTERMOST.into()).expect("an admitted chart");
        let mut random = Random::new(seed as u64);
        let mut finished = 0;
        for team in [1, 2, 3, 8].repeat(8) {
            let trace = legal(&mut random, &region, team, 30);
            let ended = assert_all_ends(chart, &trace, team, region.place.len());
            finished += usize::from(ended);
        }
        assert!(finished > 0, "{chart:02X?}");
    }
}

/// The benchmark's traces: a round, and the same again from the barrier where it ends.
#[test]
fn rounds() {
    for (name, chart) in rings() {
        let region = read(&chart, OUTERMOST.into()).unwrap_or_else(|x| panic!("{name}: {x}"));
        for team in 1..=MOST_THREADS {
            let once = round(&mut Random::new(team as u64), &region, team, 3_000);
            assert!(once.len() > 1_000, "{name}, team {team}: {}", once.len());
            let nodes = region.place.len();
            let said = assert_alike(&chart, &once.repeat(3), team, nodes * nodes);
            assert_eq!(said, Ok(Outcome::Unfinished), "{name}, team {team}");
        }
    }
}
