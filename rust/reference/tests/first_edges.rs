//! Where the nodes' edges begin, for charts that can be checked by eye; the last place is past the last
//! node.

use reference::chart::Construct;
use reference::first_edges::first_edges;
use reference::known::*;
use reference::refusals::decode_checked;

fn of(chart: &[u8]) -> Vec<usize> {
    first_edges(&decode_checked(chart).expect("an admitted chart"))
}

#[test]
fn known_charts() {
    assert_eq!(of(&row(2, 2)), [0, 1, 1]);
    // two edges leave node 3, none leaves Finish
    assert_eq!(of(&chart_k()), [0, 1, 2, 3, 5, 5]);
    let single = chart_s(Construct::SINGLE, &[]);
    assert_eq!(of(&single), [0, 1, 2, 3, 4, 4]);
    let figure = [0, 1, 3, 4, 5, 6, 7, 9, 10, 11, 12, 13, 14, 14];
    assert_eq!(of(&figure_2b()), figure);
}

#[test]
fn the_longest_row() {
    let mut expected: Vec<usize> = (0..=191).collect();
    expected.push(191);
    assert_eq!(of(&row(192, 2)), expected);
}
