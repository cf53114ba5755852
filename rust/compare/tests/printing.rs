//! The printing program against the second implementation: its whole text, on valid, damaged and
//! random charts and on input at and past the length where it stops reading.

use charts::random::Random;
use compare::programs::printed;
use reference::known::{chart_k, chart_y, chart_z, longest};
use reference::printing::{text, MOST_BYTES};

const CHARTS: usize = 400;
const SEED: u64 = 2_026_111_516;
const PROGRAM: &str = "print_chart";

fn agree(input: &[u8]) {
    let (ours, theirs) = (printed(PROGRAM, input), text(input));
    assert_eq!(ours, theirs, "input {input:02X?}");
}

#[test]
fn drawn_charts() {
    let mut random = Random::new(SEED);
    let mut admitted = 0;
    for _ in 0..CHARTS {
        let (_, chart) = charts::draw(&mut random);
        agree(&chart);
        admitted += usize::from(text(&chart).starts_with("chart"));
    }
    let share = CHARTS / 4..CHARTS * 3 / 4;
    assert!(share.contains(&admitted), "{admitted} admitted");
}

#[test]
fn benchmark_charts() {
    for (_, chart) in charts::benchmark::all() {
        agree(&chart);
    }
}

/// A chart of edition 2, one with a region inside its outermost one, and one that is refused: chart K
/// without its edge from 1 to 2, so that no path leads to the barrier 2.
#[test]
fn stored_texts() {
    let mut cut_off = chart_k();
    let edges = cut_off.len() - 16 - 10;
    cut_off.drain(edges + 2..edges + 4);
    let trailer = cut_off.len() - 16;
    for (field, value) in [(4, 4), (8, 44), (10, 24)] {
        cut_off[trailer + field] = value;
    }
    for (chart, stored) in [
        (chart_y([1, 2], &[]), include_str!("printed/masked.txt")),
        (chart_z(&[]), include_str!("printed/regions.txt")),
        (cut_off, include_str!("printed/refused.txt")),
    ] {
        agree(&chart);
        assert_eq!(text(&chart), stored);
    }
}

/// The longest chart is read whole; behind one byte more, nothing of it.
#[test]
fn longest_chart() {
    let chart = longest();
    assert_eq!(chart.len(), MOST_BYTES);
    assert!(text(&chart).starts_with("chart 192 nodes"));
    agree(&chart);
    agree(&[&[0], &chart[..]].concat());
}

/// Past the longest chart the length alone decides: the same bytes, one fewer, are refused by their
/// trailer. The last input is more than a pipe holds.
#[test]
fn long_input() {
    for (length, line) in [
        (MOST_BYTES, "refused 2\n"),
        (MOST_BYTES + 1, "refused 4\n"),
        (200_000, "refused 4\n"),
    ] {
        let input = vec![0; length];
        agree(&input);
        assert_eq!(text(&input), line);
    }
}
