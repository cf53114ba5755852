//! The printing program's text, for the inputs of which 01 gives it.

use reference::known;
use reference::printing::{text, MOST_BYTES};

#[test]
fn chart_k() {
    let expected = "chart 5 nodes 3 barriers 3 phases\n\
                    node 1 starts 3 ends 2\n\
                    node 3 starts 2 ends 6\n\
                    pair 1 1 0\n\
                    pair 1 3 0\n\
                    pair 3 3 0\n";
    assert_eq!(text(&known::chart_k()), expected);
}

#[test]
fn refusals() {
    assert_eq!(text(&[]), "refused 1\n");
    assert_eq!(text(&known::row(193, 2)), "refused 3\n");
    assert_eq!(text(&[0; MOST_BYTES]), "refused 2\n");
    assert_eq!(text(&[0; MOST_BYTES + 1]), "refused 4\n");
}

#[test]
fn two_barriers_have_no_further_lines() {
    let expected = "chart 2 nodes 2 barriers 0 phases\n";
    assert_eq!(text(&known::row(2, 2)), expected);
}
