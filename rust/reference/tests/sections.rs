//! Sections (02, Note 1): the charts that are admitted, each condition that rows 6 and 9 gain, with
//! what lies just inside it, and answer 5.

use reference::answers::Rules;
use reference::builder::ChartBuilder;
use reference::calls::admit;
use reference::chart::{Construct, Node};
use reference::known::{chart_s, chart_x, nested};
use reference::refusals::decode_checked;
use reference::regions::outermost::{judge, pair};

const NONE: u8 = Construct::NONE;

/// Chart X as records, to be changed.
fn x() -> ChartBuilder {
    ChartBuilder::from_chart(&decode_checked(&chart_x(&[])).expect("chart X"))
}

/// The number for chart X after a change.
fn changed(change: fn(&mut ChartBuilder)) -> i64 {
    let mut chart = x();
    change(&mut chart);
    admit(&chart.bytes())
}

#[test]
fn chart_x_as_bytes() {
    let bytes = [
        1, 0xFF, 0, 0, 2, 0, 0, 0, 2, 1, 0, 0, 0, 1, 0, 0, 3, 1, 0, 0, 2, 2, 0, 0, 3, 2, 0, 0, 3,
        0, 0, 0, 1, 0xFF, 0, 0, 0, 1, 1, 2, 1, 5, 2, 3, 3, 4, 4, 7, 5, 6, 6, 7, 7, 8, 6, 0xFF, 0,
        0, 7, 0, 0, 0, 7, 0, 0, 0, 1, 0, 9, 0, 9, 0, 3, 0, 82, 0, 46, 0, 28, 0, 0x4F, 0x43,
    ];
    assert_eq!(chart_x(&[]), bytes);
    assert_eq!(admit(&bytes), 66_057);
}

#[test]
fn answers_of_chart_x() {
    let chart = chart_x(&[]);
    let both_in_first = |a: u64, b: u64| (2..=4).contains(&a) && (2..=4).contains(&b);
    let both_in_second = |a: u64, b: u64| (5..=6).contains(&a) && (5..=6).contains(&b);
    for a in 1..=7 {
        for b in 1..=7 {
            let excluded = both_in_first(a, b) || both_in_second(a, b);
            let answer = if excluded { 5 } else { 0 };
            assert_eq!(pair(&chart, a, b), answer, "{a} {b}");
        }
    }
    assert_eq!(judge(&chart, &[3, 3, 2, 4, 5, 6, 3, 5]), 4);
}

#[test]
fn a_return_of_the_sections_construct_lets_them_meet() {
    for returning in [chart_x(&[(7, 1)]), with_detour(Node::PLAIN)] {
        for (a, b) in [(3, 3), (2, 4), (2, 2), (5, 6)] {
            assert_eq!(pair(&returning, a, b), 0, "{a} {b}");
        }
    }
    let through_barrier = with_detour(Node::BARRIER);
    assert_eq!(pair(&through_barrier, 3, 3), 5);
    assert_eq!(pair(&through_barrier, 2, 4), 5);
}

/// Chart X with a further node at 8, behind the sections construct and leading back to it, and
/// Finish as 9.
fn with_detour(kind: u8) -> Vec<u8> {
    let mut chart = x();
    chart.nodes[8].kind = kind;
    chart.barrier();
    chart.edge(8, 1);
    chart.edge(8, 9);
    chart.bytes()
}

#[test]
fn row_6_nesting_table() {
    let below_above = |below: u8, above: u8| match above {
        Construct::ORDERED => admit(&nested(&[(4, 0), (above, 0), (below, 0)], false).bytes()),
        Construct::SECTION => admit(&nested(&[(6, 0), (above, 0), (below, 0)], false).bytes()),
        _ => admit(&nested(&[(above, 0), (below, u16::from(below == 3))], false).bytes()),
    };
    for below in 1..=7 {
        for above in 1..=7 {
            let by_table = below == 3 || [(2, 3), (5, 4), (7, 6)].contains(&(below, above));
            let directly_in_sections = above == 6 && below != 7;
            let allowed = by_table && !directly_in_sections;
            let number = below_above(below, above);
            assert_eq!(number > 0, allowed, "{below} in {above}");
            assert!(allowed || number == -6, "{below} in {above}: {number}");
        }
    }
}

#[test]
fn row_6_kinds_and_names() {
    for kind in [0, 9, 255] {
        assert_eq!(admit(&chart_s(kind, &[])), -6, "kind {kind}");
    }
    assert_eq!(changed(|x| x.constructs[0].name = 1), -6, "a name");
    assert_eq!(changed(|x| x.constructs[2].name = 256), -6, "a name");
}

#[test]
fn row_6_what_lies_in_a_sections() {
    assert_eq!(changed(|x| x.nodes[3].construct = 0), -6, "a plain node");
    assert_eq!(changed(|x| x.constructs[1].kind = 3), -6, "a critical");
    assert_eq!(changed(|x| x.constructs[2].kind = 5), -6, "an ordered");
    assert_eq!(changed(|x| x.constructs[2].parent = NONE), -6, "outside");
    assert_eq!(changed(|x| x.constructs[2].parent = 1), -6, "in a section");
    assert_eq!(changed(|x| x.constructs[0].kind = 4), -6, "of a do");
    assert_eq!(changed(|x| x.constructs[0].kind = 1), -6, "of a single");
    assert_eq!(admit(&chart_s(Construct::SECTIONS, &[])), -6);
    assert_eq!(admit(&chart_s(Construct::SECTION, &[])), -6);
}

#[test]
fn row_6_below_a_section() {
    let (sections, section) = ((6, 0), (7, 0));
    let number = |constructs: &[(u8, u16)]| admit(&nested(constructs, true).bytes());
    assert_eq!(number(&[sections, section, (3, 0)]), 66_057);
    assert_eq!(number(&[sections, section, (3, 1), (3, 2)]), 66_059);
    assert_eq!(number(&[sections, section, (3, 1), (3, 1)]), -6);
    assert_eq!(number(&[(3, 0), sections, section]), -6, "in a critical");
    for kind in [1, 2, 4, 5, 6, 7] {
        let constructs = [sections, section, (kind, 0)];
        assert_eq!(number(&constructs), -6, "kind {kind}");
        let constructs = [sections, section, (3, 0), (kind, 0)];
        assert_eq!(number(&constructs), -6, "kind {kind} deeper");
    }
}

#[test]
fn row_6_has_its_place_between_rows_5_and_7() {
    let stray = |x: &mut ChartBuilder| x.nodes[3].construct = 0;
    let mut chart = x();
    stray(&mut chart);
    chart.nodes[4].kind = Node::PLAIN;
    assert_eq!(admit(&chart.bytes()), -6, "the section has no end either");
    chart.nodes[6].construct = 3;
    assert_eq!(admit(&chart.bytes()), -5);
}

#[test]
fn row_9_edges_in_a_sections() {
    let outcomes = [
        (4, 5, false, "from one section's end to another's begin"),
        (6, 2, false, "back"),
        (4, 2, false, "from a section's end to its own begin"),
        (6, 5, false, "from a section's end to its own begin"),
        (7, 2, false, "from the end of all"),
        (0, 2, false, "from outside"),
        (4, 8, false, "to outside"),
        (3, 7, false, "from inside a section to the end of all"),
        (2, 7, false, "from a section's begin to the end of all"),
        (1, 4, false, "from the begin of all to a section's end"),
        (1, 3, false, "from the begin of all to inside a section"),
        (1, 7, true, "straight"),
        (2, 4, true, "past what the section holds"),
        (7, 1, true, "the sections construct returns"),
        (0, 8, true, "past all"),
    ];
    for (from, to, admitted, what) in outcomes {
        let expected = if admitted { 66_057 } else { -9 };
        assert_eq!(admit(&chart_x(&[(from, to)])), expected, "{what}");
    }
}

#[test]
fn row_10_asks_for_an_edge_to_each_section_and_from_it() {
    for (from, to) in [(1, 2), (1, 5), (4, 7), (6, 7)] {
        let mut chart = x();
        chart.edges.retain(|x| (x.from, x.to) != (from, to));
        assert_eq!(admit(&chart.bytes()), -10, "without {from}-{to}");
    }
}

#[test]
fn an_edge_past_the_sections_changes_no_answer() {
    let (without, with) = (chart_x(&[]), chart_x(&[(1, 7)]));
    for a in 1..=7 {
        for b in 1..=7 {
            assert_eq!(pair(&without, a, b), pair(&with, a, b), "{a} {b}");
        }
    }
}

#[test]
fn sections_without_a_section() {
    let chart = nested(&[(6, 0)], false).bytes();
    assert_eq!(chart.len(), 42);
    assert_eq!(admit(&chart), 66_052);
    assert_eq!(pair(&chart, 1, 1), 0);
    assert_eq!(pair(&chart, 1, 2), 0);
}

#[test]
fn a_critical_in_a_section() {
    let chart = nested(&[(6, 0), (7, 0), (3, 5)], true).bytes();
    for (a, b) in [(4, 4), (3, 5), (2, 6), (2, 4), (3, 3)] {
        assert_eq!(pair(&chart, a, b), 5, "{a} {b}");
    }
    for (a, b) in [(1, 4), (4, 7), (1, 7), (7, 7)] {
        assert_eq!(pair(&chart, a, b), 0, "{a} {b}");
    }
}

/// The begin and end of a section are inside it for answer 5 alone: around a node is what it lies
/// in, and the begin of a single stays outside the single.
#[test]
fn begin_and_end_are_inside_for_answer_5_alone() {
    let chart = decode_checked(&chart_x(&[])).unwrap();
    assert_eq!(chart.enclosing(2), [0]);
    assert_eq!(chart.enclosing(3), [1, 0]);
    let rules = Rules::of(chart);
    assert_eq!(rules.in_section[2], [1]);
    assert_eq!(rules.in_section[3], [1]);
    assert_eq!(rules.in_section[4], [1]);
    assert_eq!(rules.in_section[7], []);
    assert_eq!(pair(&chart_s(Construct::SINGLE, &[]), 1, 2), 0);
}

/// Sections of two sections constructs in a row: each excludes in itself, and not in the other.
#[test]
fn two_sections_constructs() {
    let mut chart = ChartBuilder::new();
    chart.barrier();
    for _ in 0..2 {
        let sections = chart.construct(Construct::SECTIONS, NONE, 0);
        let section = chart.construct(Construct::SECTION, sections, 0);
        chart.begin(sections);
        chart.begin(section);
        chart.end(section);
        chart.end(sections);
    }
    chart.barrier();
    chart.row();
    assert_eq!(pair(&chart.bytes(), 2, 3), 5);
    assert_eq!(pair(&chart.bytes(), 6, 7), 5);
    assert_eq!(pair(&chart.bytes(), 2, 6), 0);
    chart.edge(8, 5);
    assert_eq!(pair(&chart.bytes(), 6, 6), 0, "the second returns");
    assert_eq!(pair(&chart.bytes(), 2, 2), 5, "the first does not");
}
