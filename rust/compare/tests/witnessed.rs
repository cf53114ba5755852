//! Traces that show a meeting, by the archive: known ones, drawn and damaged ones on charts of all sizes, in any region
//! and for any team, long ones, and the refusals in their order. `replay` holds them to the program that replays.

use charts::random::Random;
use compare::regions::{BEYOND as NO_REGIONS, OUTERMOST};
use compare::traces::Recorded;
use compare::Archive;
use reference::chart::Construct;
use reference::known::*;
use reference::regions::read;
use reference::replay::replay_in;
use reference::witnessed::witnessed;

const TRACES: usize = 20_000;
/// Thread 0 goes into the single of chart S, thread 1 straight past it.
const SINGLE: [u8; 14] = [0, 1, 1, 1, 0, 2, 1, 3, 1, 4, 0, 3, 0, 4];
/// Numbers that name no node, among them those whose low byte or low half would name one.
const NO_NODES: [usize; 6] = [192, 255, 257, (1 << 32) + 1, usize::MAX - 254, usize::MAX];
/// Numbers that are no team of a trace, among them those whose low byte or low half would be one.
const NO_TEAMS: [usize; 8] = [
    0,
    9,
    255,
    256,
    258,
    1 << 32,
    (1 << 32) + 2,
    usize::MAX - 253,
];

fn agree(archive: &mut Archive, recorded: &Recorded, [a, b]: [usize; 2]) -> i64 {
    let Recorded {
        chart,
        region,
        team,
        trace,
    } = recorded;
    let number = archive.witnessed(chart, *region, *team, trace, [a, b]);
    let (region, team) = (*region as u64, *team as u64);
    let expected = witnessed(chart, region, team, trace, a as u64, b as u64);
    assert_eq!(number, expected, "{a} {b}, {recorded:02X?}");
    number
}

fn of(chart: Vec<u8>, region: usize, team: usize, trace: &[u8]) -> Recorded {
    Recorded {
        chart,
        region,
        team,
        trace: trace.to_vec(),
    }
}

/// The pairs a ≤ b of the first nodes that a trace shows.
fn shown(archive: &mut Archive, recorded: &Recorded) -> Vec<[usize; 2]> {
    let pairs = (0..9).flat_map(|a| (a..9).map(move |b| [a, b]));
    pairs
        .filter(|&[a, b]| {
            let number = agree(archive, recorded, [a, b]);
            assert_eq!(agree(archive, recorded, [b, a]), number, "{a} {b}");
            number == 1
        })
        .collect()
}

#[test]
fn known_traces() {
    let mut archive = Archive::new();
    let single = || chart_s(Construct::SINGLE, &[]);
    let whole = of(single(), OUTERMOST, 2, &SINGLE);
    assert_eq!(shown(&mut archive, &whole), [[1, 1], [1, 2], [2, 3]]);
    for length in (0..SINGLE.len()).step_by(2) {
        let cut = of(single(), OUTERMOST, 2, &SINGLE[..length]);
        assert_eq!(shown(&mut archive, &cut), [[0; 2]; 0], "unfinished");
    }
    for team in [1, 3, 8] {
        let other = of(single(), OUTERMOST, team, &SINGLE);
        assert_eq!(shown(&mut archive, &other), [[0; 2]; 0], "another team");
    }
    let longer = [&SINGLE[..], &[0, 4]].concat();
    let longer = of(single(), OUTERMOST, 2, &longer);
    assert_eq!(shown(&mut archive, &longer), [[0; 2]; 0], "forbidden");
    let hangs = [0, 1, 1, 1, 0, 2, 1, 2, 0, 4, 1, 4, 0, 6, 1, 6, 0, 7, 1, 8];
    let hangs = of(figure_2b(), OUTERMOST, 2, &hangs);
    assert_eq!(shown(&mut archive, &hangs), [[0; 2]; 0], "cannot finish");
    let inner = [0, 2, 1, 2, 0, 3, 1, 4, 1, 5, 0, 4, 0, 5, 0, 6, 1, 6];
    let inner = of(chart_z(&[]), 0, 2, &inner);
    assert_eq!(shown(&mut archive, &inner), [[2, 2], [2, 3], [3, 4]]);
}

/// The pairs that a trace meets and that can be asked about; some nodes of the region where it is not replayed.
fn met(recorded: &Recorded) -> Vec<[usize; 2]> {
    let Ok(region) = read(&recorded.chart, recorded.region as u64) else {
        return Vec::new();
    };
    let is_open = |&node: &usize| region.judged(node as u64).is_ok();
    match replay_in(&region, &recorded.trace, recorded.team) {
        Ok(replay) => {
            let met = replay.met().into_iter().map(|(a, b)| [a, b]);
            met.filter(|pair| pair.iter().all(is_open)).collect()
        }
        Err(_) => {
            let open = (0..region.place.len()).filter(is_open);
            open.map(|node| [node; 2]).collect()
        }
    }
}

#[test]
fn drawn_traces() {
    let mut archive = Archive::new();
    let mut random = Random::new(18);
    let (mut answers, mut refused) = ([0usize; 2], [0usize; 24]);
    for turn in 0..TRACES {
        let recorded = Recorded::draw(&mut random, turn, 40);
        let met = met(&recorded);
        for _ in 0..4 {
            let pair = match (random.below(3), &met[..]) {
                (0, _) | (_, []) => [0; 2].map(|_| random.below(recorded.chart.len() / 6 + 2)),
                (_, met) => random.pick(met),
            };
            let number = agree(&mut archive, &recorded, pair);
            match usize::try_from(number) {
                Ok(answer) => answers[answer] += 1,
                Err(_) => refused[-number as usize] += 1,
            }
        }
    }
    assert!(
        answers.iter().all(|&times| times > TRACES / 4),
        "{answers:?}"
    );
    let mut rows = [5, 9, 13, 22, 23].map(|row| refused[row]).into_iter();
    assert!(rows.all(|times| times > TRACES / 50), "{refused:?}");
}

/// A loop gone round and round, to Finish and not; longer than the program takes.
#[test]
fn long_traces() {
    let mut archive = Archive::new();
    let mut trace = vec![0, 1, 1, 1];
    while trace.len() < 400_000 {
        trace.extend([0, 2, 1, 3, 0, 3, 1, 1, 0, 1]);
    }
    trace.extend([0, 2, 1, 3, 0, 3, 0, 4, 1, 4]);
    let chart = || chart_s(Construct::SINGLE, &[(3, 1)]);
    let round = of(chart(), OUTERMOST, 2, &trace);
    let expected = [[1, 1], [1, 2], [1, 3], [2, 3], [3, 3]];
    assert_eq!(shown(&mut archive, &round), expected);
    let cut = of(chart(), OUTERMOST, 2, &trace[..trace.len() - 2]);
    assert_eq!(agree(&mut archive, &cut, [2, 3]), 0);
    let odd = of(chart(), OUTERMOST, 2, &trace[..trace.len() - 1]);
    assert_eq!(agree(&mut archive, &odd, [2, 3]), -22);
}

/// 23, then 13 of either node, then 22.
#[test]
fn refusals_in_order() {
    let mut archive = Archive::new();
    let chart = chart_s(Construct::SINGLE, &[]);
    let odd = [&SINGLE[..1], &SINGLE[..3], &SINGLE[..13]].map(|trace| (2, trace));
    let teams = NO_TEAMS.map(|team| (team, &SINGLE[..]));
    for (team, trace) in odd.into_iter().chain(teams).chain([(0, &SINGLE[..1])]) {
        let mut ask = |chart: &[u8], region: usize, pair: [usize; 2]| {
            agree(&mut archive, &of(chart.to_vec(), region, team, trace), pair)
        };
        assert_eq!(ask(&chart, OUTERMOST, [1, 2]), -22, "{team}");
        for wrong in [0, 4, 5].into_iter().chain(NO_NODES) {
            assert_eq!(ask(&chart, OUTERMOST, [wrong, 2]), -13, "{wrong}");
            assert_eq!(ask(&chart, OUTERMOST, [2, wrong]), -13, "{wrong}");
        }
        for region in [0, 1].into_iter().chain(NO_REGIONS) {
            assert_eq!(ask(&chart, region, [1, 2]), -23, "{region}");
            assert_eq!(ask(&chart, region, [0, 0]), -23, "{region}");
        }
        assert_eq!(ask(&chart[1..], 9, [0, 0]), -4);
    }
}
