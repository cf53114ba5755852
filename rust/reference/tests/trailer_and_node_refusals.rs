//! Refusals 1 to 8: each condition of each row alone, with what lies just inside the limit, and the
//! order of rows 5 to 7.

use reference::calls::admit;
use reference::chart::{Construct, Node};
use reference::known::*;

const NONE: u8 = Construct::NONE;

/// The number for a chart with one 16-bit field of the trailer replaced.
fn with_field(mut chart: Vec<u8>, field: usize, value: u16) -> i64 {
    let at = chart.len() - 16 + 2 * field;
    chart[at..at + 2].copy_from_slice(&value.to_le_bytes());
    admit(&chart)
}

/// The number for a chart with one byte replaced.
fn with_byte(mut chart: Vec<u8>, at: usize, value: u8) -> i64 {
    chart[at] = value;
    admit(&chart)
}

#[test]
fn row_1_too_short() {
    for length in 0..16 {
        assert_eq!(admit(&vec![0x4F; length]), -1);
        let chart = chart_k();
        assert_eq!(admit(&chart[chart.len() - length..]), -1);
    }
}

#[test]
fn row_2_edition_and_closing_bytes() {
    for edition in [0, 3, 256, 257, 258, 512, 65_535] {
        assert_eq!(with_field(chart_k(), 0, edition), -2);
    }
    for closing in [0, 0x4F43, 0x434E, 0x444F] {
        assert_eq!(with_field(chart_k(), 7, closing), -2);
    }
    assert_eq!(with_field(chart_k(), 7, 0x434F), 197_381);
    assert_eq!(admit(&[0; 16]), -2);
}

#[test]
fn row_3_limits() {
    for nodes in [0, 1, 193, 256, 65_535] {
        assert_eq!(with_field(chart_k(), 1, nodes), -3);
    }
    for edges in [0, 1025, 65_535] {
        assert_eq!(with_field(chart_k(), 2, edges), -3);
    }
    for constructs in [49, 256, 65_535] {
        assert_eq!(with_field(chart_k(), 3, constructs), -3);
    }
}

#[test]
fn row_4_length_and_distances() {
    for (field, value) in [(4, 46), (5, 26), (6, 16)] {
        assert_eq!(with_field(chart_k(), field, value), 197_381);
        assert_eq!(with_field(chart_k(), field, value - 1), -4);
        assert_eq!(with_field(chart_k(), field, value + 1), -4);
        assert_eq!(with_field(chart_k(), field, value + 256), -4);
    }
    for (field, value) in [(1, 6), (1, 4), (2, 4), (2, 6), (3, 1)] {
        assert_eq!(
            with_field(chart_k(), field, value),
            -4,
            "the length differs"
        );
    }
    let mut chart = chart_k();
    let trailer = chart.len() - 16;
    (chart[trailer + 2], chart[trailer + 4]) = (6, 3);
    assert_eq!(admit(&chart), -4, "the same length by other counts");
    chart = chart_k();
    assert_eq!(admit(&chart[1..]), -4);
    assert_eq!(admit(&[&[0], &chart[..]].concat()), -4);
    assert_eq!(admit(&[&chart[..], &chart[..]].concat()), -4);
    assert_eq!(admit(&[&vec![0; 100_000], &chart[..]].concat()), -4);
}

#[test]
fn a_chart_in_front_of_other_bytes_is_not_found() {
    assert_eq!(admit(&[&chart_k()[..], &[0; 16]].concat()), -2);
}

#[test]
fn row_5_nodes() {
    let chart = || chart_s(Construct::SINGLE, &[]);
    for kind in [4, 5, 128, 255] {
        assert_eq!(with_byte(chart(), 8, kind), -5, "kind {kind}");
    }
    for (node, kind) in [(0, "barrier"), (1, "begin"), (2, "plain"), (3, "end")] {
        for number in [1, 48, 254] {
            assert_eq!(
                with_byte(chart(), 4 * node + 1, number),
                -5,
                "{kind} {number}"
            );
        }
    }
    assert_eq!(with_byte(chart(), 1, 0), -5, "a barrier with a construct");
    assert_eq!(with_byte(chart(), 5, NONE), -5, "a begin without");
    assert_eq!(with_byte(chart(), 13, NONE), -5, "an end without");
    assert_eq!(with_byte(chart_k(), 5, 0), -5, "no construct 0 there");
}

#[test]
fn row_6_fields() {
    let chart = || chart_s(Construct::SINGLE, &[]);
    for kind in [0, 6, 7, 9, 255] {
        assert_eq!(with_byte(chart(), 28, kind), -6, "kind {kind}");
    }
    for parent in [0, 1, 47, 254] {
        assert_eq!(with_byte(chart(), 29, parent), -6, "parent {parent}");
    }
    for kind in [1, 2, 4] {
        assert_eq!(
            with_byte(chart_s(kind, &[]), 30, 1),
            -6,
            "a name on kind {kind}"
        );
        assert_eq!(
            with_byte(chart_s(kind, &[]), 31, 1),
            -6,
            "a name on kind {kind}"
        );
    }
    assert_eq!(with_byte(chart_s(3, &[]), 31, 1), 66_053);
}

/// The number for a chart of constructs (kind, name), each the only child of the one before.
fn nested(constructs: &[(u8, u16)]) -> i64 {
    admit(&reference::known::nested(constructs, false).bytes())
}

#[test]
fn row_6_nesting_pairs() {
    let below_above = |below: u8, above: u8| match above {
        Construct::ORDERED => nested(&[(4, 0), (above, 0), (below, 0)]),
        _ => nested(&[(above, 0), (below, u16::from(below == 3))]),
    };
    for below in 1..=5 {
        for above in 1..=5 {
            let allowed = below == 3 || (below, above) == (2, 3) || (below, above) == (5, 4);
            assert_eq!(below_above(below, above) > 0, allowed, "{below} in {above}");
            assert!(allowed || below_above(below, above) == -6);
        }
    }
}

#[test]
fn row_6_nesting_at_depth() {
    assert_eq!(nested(&[(5, 0)]), -6, "an ordered without a do");
    assert_eq!(
        nested(&[(4, 0), (3, 0), (5, 0)]),
        -6,
        "its parent is a critical"
    );
    assert_eq!(nested(&[(4, 0), (5, 0), (5, 0)]), -6);
    assert_eq!(
        nested(&[(3, 5), (3, 7), (3, 5)]),
        -6,
        "the same name at depth"
    );
    assert_eq!(nested(&[(3, 0), (3, 0)]), -6, "both unnamed");
    assert_eq!(nested(&[(3, 256), (3, 0)]), 66_054);
    assert_eq!(nested(&[(3, 5), (3, 7), (3, 6)]), 66_056);
    assert_eq!(nested(&[(3, 5), (2, 0), (3, 5)]), -6, "through a master");
    assert_eq!(nested(&[(3, 5), (2, 0), (3, 6)]), 66_056);
    assert_eq!(nested(&[(4, 0), (5, 0), (3, 0)]), 66_056);
    assert_eq!(nested(&[(3, 1), (3, 2), (1, 0)]), -6);
}

#[test]
fn row_6_comes_after_row_5_and_before_row_7() {
    let mut chart = chart_s(9, &[]);
    assert_eq!(
        admit(&chart),
        -6,
        "a plain node in a construct of a wrong kind"
    );
    chart[4 + 1] = 1;
    assert_eq!(admit(&chart), -5, "the begin's number is not below c");
    let mut unopened = chart_s(9, &[]);
    unopened[4] = Node::PLAIN;
    assert_eq!(admit(&unopened), -6);
}

#[test]
fn row_7_begins_and_ends() {
    let chart = || chart_s(Construct::SINGLE, &[]);
    let kinds = [
        (1, Node::PLAIN, "no begin"),
        (3, Node::PLAIN, "no end"),
        (1, Node::END, "two ends, no begin"),
        (3, Node::BEGIN, "two begins, no end"),
        (2, Node::BEGIN, "two begins"),
        (2, Node::END, "two ends"),
    ];
    for (node, kind, what) in kinds {
        assert_eq!(with_byte(chart(), 4 * node, kind), -7, "{what}");
    }
}

#[test]
fn row_8_barriers() {
    let mut chart = chart_k();
    chart[0] = Node::PLAIN;
    assert_eq!(admit(&chart), -8, "Start");
    chart = chart_k();
    chart[16] = Node::PLAIN;
    assert_eq!(admit(&chart), -8, "Finish");
    assert_eq!(admit(&row(65, 64)), 65 + 256 * 64 + 65_536);
    assert_eq!(admit(&row(65, 65)), -8);
    assert_eq!(admit(&row(192, 192)), -8);
}
