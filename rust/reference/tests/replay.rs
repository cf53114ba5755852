//! Replay of recorded runs: what is legal, what the records and the sheet hold then, and the program's input and text.

use reference::chart::Construct;
use reference::known::*;
use reference::replay::{input, replay, text, Outcome, Replay, MOST_INPUT, MOST_TRACE};

const OUTERMOST: u64 = 255;

/// Entries: a thread and the node that it steps to.
type Steps = [(u8, u8)];

fn trace(steps: &Steps) -> Vec<u8> {
    steps
        .iter()
        .flat_map(|&(thread, node)| [thread, node])
        .collect()
}

fn replayed(chart: &[u8], region: u64, threads: usize, steps: &Steps) -> Replay {
    replay(chart, region, &trace(steps), threads).expect("a replay")
}

fn outcome(chart: &[u8], threads: usize, steps: &Steps) -> Outcome {
    replayed(chart, OUTERMOST, threads, steps).outcome
}

fn nodes(replay: &Replay) -> Vec<usize> {
    replay.records.iter().map(|x| x.node).collect()
}

/// Thread 0 goes into the single, thread 1 straight past it.
const SINGLE: [(u8, u8); 7] = [(0, 1), (1, 1), (0, 2), (1, 3), (1, 4), (0, 3), (0, 4)];

#[test]
fn a_single() {
    let chart = chart_s(Construct::SINGLE, &[]);
    let whole = replayed(&chart, OUTERMOST, 2, &SINGLE);
    assert_eq!(whole.outcome, Outcome::Finished);
    assert_eq!(nodes(&whole), [4, 4]);
    assert!(whole.records.iter().all(|x| x.counts == [1]));
    let expected = [(0, 0), (1, 1), (1, 2), (2, 3), (2, 4), (3, 4), (4, 4)];
    assert_eq!(whole.met(), expected);
    for a in 0..5 {
        for b in 0..5 {
            assert_eq!(whole.sheet[5 * a + b], whole.sheet[5 * b + a]);
        }
    }
    let second_in = [(0, 1), (1, 1), (0, 2), (1, 2)];
    assert_eq!(outcome(&chart, 2, &second_in), Outcome::Forbidden(3));
    // the first must go in, and there is no edge from 1 to 3
    let past = [(0, 1), (1, 1), (0, 3)];
    assert_eq!(outcome(&chart, 2, &past), Outcome::Forbidden(2));
}

/// Every cut of a finished trace is unfinished, and one more entry is forbidden.
#[test]
fn cut_short_and_gone_on() {
    let chart = chart_s(Construct::SINGLE, &[]);
    for length in 0..SINGLE.len() {
        let cut = replayed(&chart, OUTERMOST, 2, &SINGLE[..length]);
        assert_eq!(cut.outcome, Outcome::Unfinished, "{length}");
    }
    for more in [(0, 1), (1, 4), (0, 4), (0, 0)] {
        let longer = [&SINGLE[..], &[more]].concat();
        let longer = replayed(&chart, OUTERMOST, 2, &longer);
        assert_eq!(longer.outcome, Outcome::Forbidden(7));
        assert_eq!(nodes(&longer), [4, 4]);
    }
}

#[test]
fn openings() {
    let chart = chart_s(Construct::SINGLE, &[]);
    let empty = replayed(&chart, OUTERMOST, 2, &[]);
    assert_eq!(
        (empty.outcome, nodes(&empty)),
        (Outcome::Unfinished, vec![0, 0])
    );
    assert_eq!(empty.met(), [(0, 0)]);
    // without its last entry an opening has no effect
    let begun = replayed(&chart, OUTERMOST, 2, &[(0, 1)]);
    assert_eq!(
        (begun.outcome, nodes(&begun)),
        (Outcome::Unfinished, vec![0, 0])
    );
    assert_eq!(begun.met(), [(0, 0)]);
    for (steps, index) in [
        (&[(1, 1)][..], 0),
        (&[(0, 2)], 0),
        (&[(0, 0)], 0),
        (&[(0, 1), (0, 1)], 1),
        (&[(0, 1), (1, 2)], 1),
        (&[(0, 1), (2, 1)], 1),
    ] {
        let stopped = replayed(&chart, OUTERMOST, 2, steps);
        assert_eq!(stopped.outcome, Outcome::Forbidden(index), "{steps:?}");
        assert_eq!(nodes(&stopped), [0, 0]);
        assert_eq!(stopped.met(), [(0, 0)]);
    }
    let waiting = replayed(&chart_k(), OUTERMOST, 2, &[(0, 1), (1, 1), (0, 2), (0, 3)]);
    assert_eq!(waiting.outcome, Outcome::Forbidden(3));
    assert_eq!(nodes(&waiting), [2, 1]);
}

/// The counts of a stretch stay until the next opening is whole.
#[test]
fn counts_until_an_opening_is_whole() {
    let chart = chart_s_through_barrier();
    let before = [&SINGLE[..], &[(0, 1)]].concat();
    let before = replayed(&chart, OUTERMOST, 2, &before);
    assert_eq!(
        (before.outcome, nodes(&before)),
        (Outcome::Unfinished, vec![4, 4])
    );
    assert!(before.records.iter().all(|x| x.counts == [1]));
    let stopped = [&SINGLE[..], &[(0, 1), (0, 1)]].concat();
    let stopped = replayed(&chart, OUTERMOST, 2, &stopped);
    assert_eq!(
        (stopped.outcome, nodes(&stopped)),
        (Outcome::Forbidden(8), vec![4, 4])
    );
    assert!(stopped.records.iter().all(|x| x.counts == [1]));
    let after = [&SINGLE[..], &[(0, 1), (1, 5)]].concat();
    let after = replayed(&chart, OUTERMOST, 2, &after);
    assert_eq!(
        (after.outcome, nodes(&after)),
        (Outcome::Unfinished, vec![1, 5])
    );
    assert!(after.records.iter().all(|x| x.counts == [0]));
}

#[test]
fn one_thread() {
    let whole = replayed(&chart_k(), OUTERMOST, 1, &[(0, 1), (0, 2), (0, 3), (0, 4)]);
    assert_eq!(whole.outcome, Outcome::Finished);
    assert!(whole.met().is_empty());
}

#[test]
fn an_ordered() {
    let chart = chart_d(&[]);
    let steps = [(0, 1), (1, 1), (0, 2), (1, 2), (0, 3), (1, 3)];
    let held = replayed(&chart, OUTERMOST, 2, &steps);
    assert_eq!(held.outcome, Outcome::Forbidden(5));
    assert_eq!(held.records[0].counts, [1, 1]);
    assert_eq!(held.records[1].counts, [1, 0]);
    let after = [&steps[..5], &[(0, 4), (1, 3)]].concat();
    assert_eq!(outcome(&chart, 2, &after), Outcome::Unfinished);
    // back into the do from its end, in the same meeting, and straight past it
    let again = [
        (0, 1),
        (1, 1),
        (0, 2),
        (0, 3),
        (0, 4),
        (0, 5),
        (0, 2),
        (1, 5),
    ];
    let again = replayed(&chart, OUTERMOST, 2, &again);
    assert_eq!(again.outcome, Outcome::Unfinished);
    assert_eq!(again.records[0].counts, [1, 1]);
    assert_eq!(again.records[1].counts, [1, 0]);
}

#[test]
fn a_masked() {
    let chart = chart_y([1, 2], &[]);
    let opened = [(0, 1), (1, 1)];
    for (step, legal) in [
        ((0, 2), false),
        ((0, 3), true),
        ((1, 2), true),
        ((1, 3), false),
    ] {
        let steps = [&opened[..], &[step]].concat();
        let expected = if legal {
            Outcome::Unfinished
        } else {
            Outcome::Forbidden(2)
        };
        assert_eq!(outcome(&chart, 2, &steps), expected, "{step:?}");
    }
}

/// Chart X: the sections construct 0 from 1 to 7, section 1 from 2 to 4, section 2 from 5 to 6.
#[test]
fn sections() {
    let chart = chart_x(&[]);
    let opened = [(0, 1), (1, 1), (0, 2)];
    let with = |more: &Steps| [&opened[..], more].concat();
    assert_eq!(outcome(&chart, 2, &with(&[(1, 2)])), Outcome::Forbidden(3));
    let each = replayed(&chart, OUTERMOST, 2, &with(&[(1, 5)]));
    assert_eq!(each.records[0].taken, [false, true, false]);
    assert_eq!(each.records[1].taken, [false, false, true]);
    assert_eq!(each.records[0].counts, [1, 0, 0]);
    // all are taken, so the end is left
    let left = replayed(
        &chart,
        OUTERMOST,
        2,
        &with(&[(1, 5), (1, 6), (1, 7), (1, 8)]),
    );
    assert_eq!(left.outcome, Outcome::Unfinished);
    assert_eq!(left.records[1].counts, [1, 0, 1]);
    let early = with(&[(0, 3), (0, 4), (0, 7), (0, 8)]);
    assert_eq!(outcome(&chart, 2, &early), Outcome::Forbidden(6));
    let both = replayed(
        &chart,
        OUTERMOST,
        2,
        &with(&[(0, 3), (0, 4), (0, 7), (0, 5)]),
    );
    assert_eq!(both.records[0].taken, [false, true, true]);
    assert_eq!(both.records[0].counts, [1, 1, 0]);
    // straight past what is all taken: a meeting in which this thread has taken none
    let past = with(&[(0, 3), (0, 4), (0, 7), (0, 5), (1, 7)]);
    let past = replayed(&chart, OUTERMOST, 2, &past);
    assert_eq!(past.outcome, Outcome::Unfinished);
    assert_eq!(past.records[1].taken, [false; 3]);
    assert_eq!(past.records[1].counts, [1, 0, 0]);
}

/// Chart Z: the inner region 0 from 1 to 6, with a single (construct 1) from 2 to 4.
#[test]
fn an_inner_region() {
    let chart = chart_z(&[]);
    let start = replayed(&chart, 0, 2, &[]);
    assert_eq!(nodes(&start), [1, 1]);
    assert_eq!(start.sheet.len(), 64);
    assert_eq!(start.met(), [(1, 1)]);
    for outside in [0, 7, 8, 255] {
        let stopped = replayed(&chart, 0, 2, &[(0, outside)]);
        assert_eq!(stopped.outcome, Outcome::Forbidden(0), "{outside}");
    }
    let inside = replayed(&chart, 0, 2, &[(0, 2), (1, 2), (0, 3)]);
    assert_eq!(inside.outcome, Outcome::Unfinished);
    assert_eq!(inside.records[0].counts, [0, 1]);
    let second = replayed(&chart, 0, 2, &[(0, 2), (1, 2), (0, 3), (1, 3)]);
    assert_eq!(second.outcome, Outcome::Forbidden(3));
    // the outer team counts no construct of the inner region, nor the parallel
    let outer = [(0, 1), (1, 1), (0, 2), (1, 2), (0, 3), (1, 3)];
    let outer = replayed(&chart, OUTERMOST, 2, &outer);
    assert_eq!(outer.outcome, Outcome::Unfinished);
    assert!(outer.records.iter().all(|x| x.counts == [0, 0]));
}

#[test]
fn refusals() {
    let chart = chart_z(&[]);
    for (region, trace, threads) in [
        (OUTERMOST, &[0][..], 2),
        (OUTERMOST, &[0, 1, 0], 1),
        (OUTERMOST, &[], 0),
        (OUTERMOST, &[0, 1], 9),
        (0, &[], 255),
    ] {
        assert_eq!(replay(&chart, region, trace, threads), Err(22));
    }
    assert_eq!(replay(&chart, 1, &[0], 9), Err(23));
    assert_eq!(replay(&chart[1..], 1, &[0], 9), Err(4));
    assert!(replay(&chart, OUTERMOST, &[], 8).is_ok());
}

#[test]
fn printed() {
    let single = chart_s(Construct::SINGLE, &[]);
    let shown =
        |steps: &Steps, team: u8, chart: &[u8]| text(&input(255, team, &trace(steps), chart));
    let expected = "finished\n\
                    thread 0 node 4 construct 0 count 1\n\
                    thread 1 node 4 construct 0 count 1\n\
                    met 0 0\nmet 1 1\nmet 1 2\nmet 2 3\nmet 2 4\nmet 3 4\nmet 4 4\n";
    assert_eq!(shown(&SINGLE, 2, &single), expected);
    let expected = "forbidden 0\nthread 0 node 0\nthread 1 node 0\nmet 0 0\n";
    assert_eq!(shown(&[(1, 1)], 2, &single), expected);
    assert_eq!(shown(&[], 1, &single), "unfinished\nthread 0 node 0\n");
    let expected = "unfinished\n\
                    thread 0 node 5 construct 0 count 1 construct 1 count 1 taken 1 taken 2\n";
    let steps = [(0, 1), (0, 2), (0, 3), (0, 4), (0, 7), (0, 5)];
    assert_eq!(shown(&steps, 1, &chart_x(&[])), expected);
    assert_eq!(shown(&[], 0, &single), "refused 22\n");
    assert_eq!(shown(&[], 9, &single), "refused 22\n");
    let whole = input(255, 2, &trace(&SINGLE), &single);
    for length in 0..4 + 2 * SINGLE.len() {
        assert_eq!(text(&whole[..length]), "input too short\n", "{length}");
    }
    assert_eq!(text(&whole[..4 + 2 * SINGLE.len()]), "refused 1\n");
    assert_eq!(text(&vec![0; MOST_INPUT + 1]), "input too long\n");
    let odd = input(255, 2, &vec![0; MOST_TRACE], &single);
    assert_eq!(text(&odd), "refused 22\n");
}
