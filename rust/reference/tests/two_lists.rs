//! Two lists on one chart: which part is handed back, and that neither list touches the other's verdict.
//! And the program's input and text.

use reference::chart::Construct;
use reference::known::*;
use reference::two_lists::{input, judge_two, text, Verdicts, MOST_INPUT, MOST_LIST};

const OUTERMOST: u64 = 255;

/// Whether a part is the end of a list from a byte on, by its place and not by its bytes.
fn is_end_of(part: &[u8], list: &[u8], from: usize) -> bool {
    part.as_ptr_range() == list[from..].as_ptr_range()
}

/// Two lists, their numbers, and the part as the number of its list and the byte where it begins.
type Case = (&'static [u8], &'static [u8], [i64; 2], (usize, usize));

/// On chart S single all pairs but (2,2) are false.
#[test]
fn the_earlier_of_two_false_pairs() {
    let chart = chart_s(Construct::SINGLE, &[]);
    let cases: [Case; 7] = [
        (&[2, 2, 1, 2], &[1, 2], [2, 1], (1, 0)),
        (&[1, 2], &[2, 2, 1, 2], [1, 2], (0, 0)),
        // a tie, though the second list goes on for longer
        (&[2, 2, 1, 2], &[2, 2, 3, 3, 2, 2], [2, 2], (0, 2)),
        (&[2, 2], &[2, 2, 2, 2, 3, 3, 1, 1], [0, 3], (1, 4)),
        (&[2, 2, 2, 2, 1, 1, 2, 2], &[], [3, 0], (0, 4)),
        // what is refused does not fail, though a pair of it would be false
        (&[2, 2, 1], &[1, 1, 2, 2], [-12, 1], (1, 0)),
        (&[2, 2, 3, 3], &[1, 1, 0, 1], [2, -13], (0, 2)),
    ];
    for (first, second, numbers, (list, from)) in cases {
        let Verdicts {
            first: one,
            second: other,
            part,
        } = judge_two(&chart, OUTERMOST, first, second);
        assert_eq!([one, other], numbers, "{first:?} {second:?}");
        assert!(is_end_of(part, [first, second][list], from));
    }
}

#[test]
fn neither_fails() {
    let chart = chart_s(Construct::SINGLE, &[]);
    let lists: [(&[u8], &[u8], [i64; 2]); 5] = [
        (&[1, 1, 5, 5], &[1], [-13, -12]),
        (&[], &[2, 2], [0, 0]),
        (&[2, 2], &[0, 1], [0, -13]),
        (&[2, 2], &[], [0, 0]),
        (&[1], &[2, 2], [-12, 0]),
    ];
    for (first, second, numbers) in lists {
        let verdicts = judge_two(&chart, OUTERMOST, first, second);
        assert_eq!([verdicts.first, verdicts.second], numbers);
        assert!(verdicts.part.is_empty());
        assert_eq!(verdicts.part.as_ptr(), first.as_ptr());
    }
}

/// "Any list on a refused chart counts as not failing", and so does any for what is no region.
#[test]
fn a_refused_chart() {
    let (z, short) = (chart_z(&[]), [0; 10]);
    let false_pair: &[u8] = &[3, 3, 2, 3];
    for (chart, region, number) in [
        (&short[..], OUTERMOST, -1),
        (&z[1..], OUTERMOST, -4),
        (&z, 1, -23),
        (&z, 254, -23),
    ] {
        let verdicts = judge_two(chart, region, false_pair, &[1]);
        assert_eq!([verdicts.first, verdicts.second], [number; 2]);
        assert!(verdicts.part.is_empty());
        assert_eq!(verdicts.part.as_ptr(), false_pair.as_ptr());
    }
    let inner = judge_two(&z, 0, false_pair, &[3, 3]);
    assert_eq!([inner.first, inner.second], [2, 0]);
    assert!(is_end_of(inner.part, false_pair, 2));
}

#[test]
fn one_list_handed_in_twice() {
    let chart = chart_s(Construct::SINGLE, &[]);
    let list: &[u8] = &[2, 2, 1, 2, 3, 3];
    let verdicts = judge_two(&chart, OUTERMOST, list, list);
    assert_eq!([verdicts.first, verdicts.second], [2, 2]);
    assert!(is_end_of(verdicts.part, list, 2));
}

#[test]
fn text_of_the_program() {
    let chart = chart_s(Construct::SINGLE, &[]);
    let asked = |first, second| text(&input(255, [first, second], &chart));
    assert_eq!(
        asked(&[2, 2, 1, 2], &[1, 2]),
        "first 2\nsecond 1\npart 1 2\n"
    );
    assert_eq!(
        asked(&[2, 2, 1], &[1, 1, 2, 2]),
        "first -12\nsecond 1\npart 1 1 2 2\n"
    );
    assert_eq!(asked(&[], &[2, 2]), "first 0\nsecond 0\npart\n");
    let inner = input(0, [&[3, 3, 2, 3], &[]], &chart_z(&[]));
    assert_eq!(text(&inner), "first 2\nsecond 0\npart 2 3\n");
}

/// Input is too short as long as a list is; what follows is a chart, be it empty.
#[test]
fn short_and_long_input() {
    let whole = input(255, [&[2, 2, 1, 2], &[1, 2]], &[]);
    for length in 0..whole.len() {
        assert_eq!(text(&whole[..length]), "input too short\n", "{length}");
    }
    assert_eq!(text(&whole), "first -1\nsecond -1\npart\n");
    let list = [1; MOST_LIST];
    let mut most = input(255, [&list; 2], &longest());
    assert_eq!(most.len(), MOST_INPUT);
    assert_eq!(MOST_INPUT, 134_195);
    assert_eq!(text(&most), "first -12\nsecond -12\npart\n");
    most.push(0);
    assert_eq!(text(&most), "input too long\n");
}
