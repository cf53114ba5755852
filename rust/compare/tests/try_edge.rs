//! Asking about an edge (02, Note 6), by the program `try_edge`: its text against the second implementation,
//! and the receipts that it prints, with which the archive puts the edges in.

use charts::random::Random;
use compare::edits::*;
use compare::programs::printed;
use compare::Archive;
use reference::chart::{Construct, Edge};
use reference::edits::{input, text, Receipt, MOST_BUFFER};
use reference::known::{chart_s, chart_y, longest};

const CHARTS: usize = 2_500;
const SEED: u64 = 2_026_111_507;
const PROGRAM: &str = "try_edge";

fn agree(edge: Edge, length: usize, buffer: &[u8]) -> String {
    let length = u16::try_from(length).expect("a length of two bytes");
    let input = input(edge, length, buffer);
    let (ours, theirs) = (printed(PROGRAM, &input), text(&input));
    assert_eq!(ours, theirs, "{edge:?}, length {length}, {buffer:02X?}");
    ours
}

/// The receipt of a printed line, if it is one.
fn receipt(line: &str) -> Option<Receipt> {
    let words: Vec<&str> = line.split_whitespace().collect();
    match words[..] {
        ["length", length, "place", place] => Some(Receipt {
            length: length.parse().ok()?,
            place: place.parse().ok()?,
        }),
        _ => None,
    }
}

#[test]
fn known_edges() {
    let single = chart_s(Construct::SINGLE, &[]);
    let asked = |from, to, length| agree(Edge { from, to }, length, &single);
    assert_eq!(asked(3, 1, 48), "length 48 place 3\n");
    assert_eq!(asked(1, 3, 48), "length 48 place 2\n");
    assert_eq!(asked(0, 4, 48), "length 48 place 1\n");
    assert_eq!(asked(2, 1, 48), "refused 9\n");
    assert_eq!(asked(1, 2, 48), "refused 9\n");
    assert_eq!(asked(3, 1, 49), "refused 4\n");
    assert_eq!(asked(3, 1, 47), "refused 2\n");
    assert_eq!(asked(3, 1, 15), "refused 1\n");
    let edge = Edge { from: 3, to: 1 };
    assert_eq!(
        agree(edge, 74, &chart_y([1, 2], &[])),
        "length 74 place 3\n"
    );
    assert_eq!(agree(edge, 3_120, &longest()), "refused 3\n");
}

/// What is printed as a receipt puts the edge in; where the program refuses, the call does too, and by the
/// same number.
#[test]
fn drawn_edges() {
    let mut archive = Archive::new();
    let mut random = Random::new(SEED);
    let mut outcomes = [0usize; 11];
    for _ in 0..CHARTS {
        let chart = drawn(&mut random);
        let edge = any_edge(&mut random, &chart);
        let mut bytes = buffer(&chart, random.pick(&[2, 3, 40]));
        let length = match random.below(10) {
            0 => random.below(bytes.len() + 2),
            _ => chart.len(),
        };
        let line = agree(edge, length, &bytes);
        let receipt = receipt(&line);
        let tried = receipt.unwrap_or(right_receipt(&chart, edge));
        let number = archive.insert_edge(&mut bytes, length, tried, edge);
        match receipt {
            Some(_) => assert_eq!(number, length as i64 + 2, "{line}"),
            None => assert_eq!(line, format!("refused {}\n", -number)),
        }
        outcomes[(-number).max(0) as usize] += 1;
    }
    assert!(outcomes.iter().all(|&times| times > 10), "{outcomes:?}");
}

#[test]
fn short_and_long_input() {
    let edge = Edge { from: 3, to: 1 };
    let single = chart_s(Construct::SINGLE, &[]);
    let whole = input(edge, 48, &single);
    for length in 0..whole.len() {
        let input = &whole[..length];
        assert_eq!(printed(PROGRAM, input), text(input), "{length}");
    }
    assert_eq!(printed(PROGRAM, &whole[..3]), "input too short\n");
    assert_eq!(printed(PROGRAM, &whole[..4]), "refused 4\n");
    let mut most = buffer(&single, MOST_BUFFER - 48);
    assert_eq!(agree(edge, 48, &most), "length 48 place 3\n");
    assert_eq!(agree(edge, MOST_BUFFER, &most), "refused 2\n");
    most.push(0);
    assert_eq!(agree(edge, 48, &most), "input too long\n");
    most.resize(3 * MOST_BUFFER, 0);
    assert_eq!(agree(edge, 48, &most), "input too long\n");
}
