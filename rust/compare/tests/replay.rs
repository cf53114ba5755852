//! Replay of recorded runs (02, Note 11), by the program `replay_trace`: its text against the second implementation,
//! and the pairs that it marks against what the archive answers for them and says that the trace shows.

use charts::random::Random;
use compare::programs::printed;
use compare::traces::Recorded;
use compare::Archive;
use reference::chart::Construct;
use reference::known::*;
use reference::replay::{input, text, MOST_INPUT, MOST_TRACE};

const TRACES: usize = 3_000;
const SEED: u64 = 2_026_111_611;
const PROGRAM: &str = "replay_trace";
const OUTERMOST: u8 = 255;

fn agree(region: u8, team: usize, trace: &[u8], chart: &[u8]) -> String {
    let input = input(region, team as u8, trace, chart);
    let (ours, theirs) = (printed(PROGRAM, &input), text(&input));
    assert_eq!(
        ours, theirs,
        "region {region}, team {team}, {trace:?}, {chart:02X?}"
    );
    ours
}

/// The pairs of the lines `met A B`.
fn met(text: &str) -> Vec<[usize; 2]> {
    let lines = text.lines().filter_map(|line| line.strip_prefix("met "));
    let number = |word: &str| word.parse().expect("a number");
    lines
        .map(|line| {
            let (a, b) = line.split_once(' ').expect("two numbers");
            [a, b].map(number)
        })
        .collect()
}

#[test]
fn known_traces() {
    let single = chart_s(Construct::SINGLE, &[]);
    let finished = [0, 1, 1, 1, 0, 2, 1, 3, 1, 4, 0, 3, 0, 4];
    for length in 0..=finished.len() {
        agree(OUTERMOST, 2, &finished[..length], &single);
    }
    let expected = "finished\n\
                    thread 0 node 4 construct 0 count 1\n\
                    thread 1 node 4 construct 0 count 1\n\
                    met 0 0\nmet 1 1\nmet 1 2\nmet 2 3\nmet 2 4\nmet 3 4\nmet 4 4\n";
    assert_eq!(agree(OUTERMOST, 2, &finished, &single), expected);
    let cases: [(&[u8], &str); 6] = [
        (&[], "unfinished"),
        (&[0, 1], "unfinished"),
        (&[1, 1], "forbidden 0"),
        (&[0, 1, 1, 1, 0, 2, 1, 2], "forbidden 3"),
        (&[0, 1, 1, 1, 0, 3], "forbidden 2"),
        (
            &[0, 1, 1, 1, 0, 2, 1, 3, 1, 4, 0, 3, 0, 4, 0, 1],
            "forbidden 7",
        ),
    ];
    for (trace, line) in cases {
        let text = agree(OUTERMOST, 2, trace, &single);
        assert_eq!(text.lines().next(), Some(line), "{trace:?}");
    }
    for (team, trace) in [
        (0, &[][..]),
        (9, &[]),
        (255, &[]),
        (2, &[0]),
        (2, &[0, 1, 1]),
    ] {
        assert_eq!(agree(OUTERMOST, team, trace, &single), "refused 22\n");
    }
    assert_eq!(agree(1, 9, &[0], &single), "refused 23\n");
    assert_eq!(agree(1, 9, &[0], &single[1..]), "refused 4\n");
    let inner = chart_z(&[]);
    agree(0, 2, &[0, 2, 1, 2, 0, 3, 1, 3], &inner);
    agree(0, 2, &[0, 7], &inner);
    agree(
        OUTERMOST,
        2,
        &[0, 1, 1, 1, 0, 2, 1, 5, 1, 6, 1, 7, 1, 8],
        &chart_x(&[]),
    );
    agree(OUTERMOST, 1, &[0, 1, 0, 2, 0, 3, 0, 4], &chart_k());
}

/// What the archive says of pairs that a replayed trace meets, or does not: they may meet, and the trace shows it where it
/// is finished.
fn assert_shown(archive: &mut Archive, recorded: &Recorded, region: u8, text: &str) {
    let Recorded {
        chart, team, trace, ..
    } = recorded;
    let finished = text.starts_with("finished");
    let marked = met(text);
    let others = (0..12).flat_map(|a| (a..12).map(move |b| [a, b]));
    for [a, b] in others.chain(marked.clone()) {
        let is_marked = finished && marked.contains(&[a, b]);
        // 13 where one of them is no node of the region, or a barrier
        let answer = archive.pair(chart, region.into(), a, b);
        let shown = archive.witnessed(chart, region.into(), *team, trace, [a, b]);
        let expected = if answer == -13 { -13 } else { is_marked.into() };
        assert_eq!(shown, expected, "{a} {b}, {recorded:02X?}");
        assert!(
            !is_marked || answer <= 0,
            "{a} {b}: {answer}, {recorded:02X?}"
        );
    }
}

/// Runs as far as they go, most of them with an entry changed; some charts large, some refused, any region and team.
#[test]
fn drawn_traces() {
    let mut archive = Archive::new();
    let mut random = Random::new(SEED);
    let mut outcomes = [0usize; 4];
    for turn in 0..TRACES {
        let recorded = Recorded::draw(&mut random, turn, 60);
        let region = u8::try_from(recorded.region).unwrap_or(OUTERMOST);
        let text = agree(region, recorded.team, &recorded.trace, &recorded.chart);
        let outcome = match text.split([' ', '\n']).next() {
            Some("finished") => 0,
            Some("unfinished") => 1,
            Some("forbidden") => 2,
            _ => 3,
        };
        outcomes[outcome] += 1;
        if outcome != 3 {
            assert_shown(&mut archive, &recorded, region, &text);
        }
    }
    assert!(
        outcomes.iter().all(|&times| times > TRACES / 30),
        "{outcomes:?}"
    );
}

/// As long as its length can say: a loop gone round and round, and a wrong entry at its end.
#[test]
fn long_traces() {
    let chart = chart_s(Construct::SINGLE, &[(3, 1)]);
    let mut trace = vec![0, 1];
    while trace.len() + 6 < MOST_TRACE {
        trace.extend([0, 2, 0, 3, 0, 1]);
    }
    let text = agree(OUTERMOST, 1, &trace, &chart);
    assert_eq!(
        text,
        "unfinished\nthread 0 node 1 construct 0 count 10922\n"
    );
    let last = trace.len() / 2 - 1;
    trace[2 * last + 1] = 4;
    agree(OUTERMOST, 1, &trace, &chart);
    trace[2 * last + 1] = 2;
    let text = agree(OUTERMOST, 1, &trace, &chart);
    assert!(text.starts_with(&format!("forbidden {last}\n")));
    agree(OUTERMOST, 8, &vec![0; MOST_TRACE - 1], &longest());
    agree(OUTERMOST, 8, &vec![0; MOST_TRACE], &longest());
}

/// Every input up to a chart, the longest one and one byte more; then more than a pipe holds.
#[test]
fn short_and_long_input() {
    let whole = input(
        OUTERMOST,
        2,
        &[0, 1, 1, 1, 0, 2],
        &chart_s(Construct::SINGLE, &[]),
    );
    for length in 0..=whole.len() {
        let input = &whole[..length];
        assert_eq!(printed(PROGRAM, input), text(input), "{length}");
    }
    for length in [MOST_INPUT, MOST_INPUT + 1, 2 * MOST_INPUT] {
        let input = vec![0; length];
        assert_eq!(printed(PROGRAM, &input), text(&input), "{length}");
    }
}
