//! Masked instead of master (02, Note 5): the bytes of edition 2, each condition that rows 2, 4 and 6
//! gain, with what lies just inside it, edition 1 as it was, and rule 2 by filters.

use reference::builder::ChartBuilder;
use reference::calls::admit;
use reference::chart::{Construct, Node, Trailer};
use reference::known::*;
use reference::masked;
use reference::printing::{text, MOST_BYTES};
use reference::refusals::decode_checked;
use reference::regions::outermost::{judge, pair, phases, sheet};

const NONE: u8 = Construct::NONE;

/// A chart with one 16-bit field of the trailer replaced.
fn with_field(mut chart: Vec<u8>, field: usize, value: usize) -> Vec<u8> {
    let at = chart.len() - Trailer::BYTES + 2 * field;
    chart[at..at + 2].copy_from_slice(&(value as u16).to_le_bytes());
    chart
}

/// The records of a chart, to be written in edition 2, where a filter can be given.
fn rewritten(chart: &[u8]) -> ChartBuilder {
    let mut chart = ChartBuilder::from_chart(&decode_checked(chart).expect("a valid chart"));
    chart.edition = masked::EDITION;
    chart
}

/// Masked constructs of some filters one after the other, each around a plain node: node 3k + 2 is
/// inside the k-th.
fn masked_in_a_row(filters: &[u16]) -> Vec<u8> {
    let mut chart = ChartBuilder::of_edition(masked::EDITION);
    chart.barrier();
    for &filter in filters {
        let own = chart.masked(NONE, filter);
        chart.begin(own);
        chart.plain(own);
        chart.end(own);
    }
    chart.barrier();
    chart.row();
    chart.bytes()
}

#[test]
fn chart_y_as_bytes() {
    let bytes = [
        1, 0xFF, 0, 0, 2, 0, 0, 0, 0, 0, 0, 0, 3, 0, 0, 0, 2, 1, 0, 0, 0, 1, 0, 0, 3, 1, 0, 0, 1,
        0xFF, 0, 0, 0, 1, 1, 2, 2, 3, 3, 4, 4, 5, 5, 6, 6, 7, 2, 0xFF, 0, 0, 1, 0, 2, 0xFF, 0, 0,
        2, 0, 2, 0, 8, 0, 7, 0, 2, 0, 74, 0, 42, 0, 28, 0, 0x4F, 0x43,
    ];
    assert_eq!(chart_y([1, 2], &[]), bytes);
    assert_eq!(bytes.len(), 74);
    assert_eq!(admit(&bytes), 66_056);
    for (a, b, answer) in [(2, 2, 2), (5, 5, 2), (2, 5, 0), (5, 2, 0)] {
        assert_eq!(pair(&bytes, a, b), answer, "{a} {b}");
    }
    for frame in [1, 3, 4, 6] {
        assert_eq!(pair(&bytes, frame, frame), 0, "not inside: {frame}");
        assert_eq!(pair(&bytes, frame, 2), 0, "not inside: {frame}");
    }
    assert_eq!(judge(&bytes, &[2, 2, 5, 5]), 0);
    assert_eq!(judge(&bytes, &[2, 2, 5, 5, 5, 2]), 3);
}

#[test]
fn rule_2_by_filters() {
    for (filters, answer) in [
        ([1, 1], 2),
        ([0, 0], 2),
        ([0, 1], 0),
        ([0, 256], 0),
        ([1, 257], 0),
        ([255, 65_535], 0),
        ([256, 256], 2),
        ([65_280, 65_535], 0),
        ([65_535, 65_535], 2),
    ] {
        let chart = chart_y(filters, &[]);
        assert_eq!(pair(&chart, 2, 5), answer, "{filters:?}");
        assert_eq!(pair(&chart, 5, 2), answer, "{filters:?}");
        assert_eq!(pair(&chart, 2, 2), 2, "{filters:?}");
        assert_eq!(pair(&chart, 5, 5), 2, "{filters:?}");
    }
}

/// Equal filters are what counts, and not neighbours or the same construct.
#[test]
fn rule_2_over_many_masked_constructs() {
    let filters = [0, 1, 0, 256, 1, 0, 255, 256];
    let chart = masked_in_a_row(&filters);
    for (i, one) in filters.iter().enumerate() {
        for (j, other) in filters.iter().enumerate() {
            let answer = if one == other { 2 } else { 0 };
            let (a, b) = (3 * i as u64 + 2, 3 * j as u64 + 2);
            assert_eq!(pair(&chart, a, b), answer, "{i} {j}");
        }
    }
}

/// "Inside" is at any depth: a critical in a masked, a masked in a critical.
#[test]
fn rule_2_at_depth() {
    let chart = |filters: [u16; 2]| {
        let mut chart = ChartBuilder::of_edition(masked::EDITION);
        let outer = chart.masked(NONE, filters[0]);
        let within = chart.construct(Construct::CRITICAL, outer, 1);
        let around = chart.construct(Construct::CRITICAL, NONE, 2);
        let inner = chart.masked(around, filters[1]);
        chart.barrier();
        chart.begin(outer);
        chart.begin(within);
        chart.plain(within);
        chart.end(within);
        chart.end(outer);
        chart.begin(around);
        chart.begin(inner);
        chart.plain(inner);
        chart.end(inner);
        chart.end(around);
        chart.barrier();
        chart.row();
        chart.bytes()
    };
    assert_eq!(admit(&chart([7, 7])), 66_060);
    assert_eq!(pair(&chart([7, 7]), 3, 8), 2);
    assert_eq!(pair(&chart([7, 7]), 2, 8), 2, "the critical's begin");
    assert_eq!(pair(&chart([7, 7]), 3, 7), 0, "the masked's own begin");
    assert_eq!(pair(&chart([7, 8]), 3, 8), 0);
    assert_eq!(pair(&chart([7, 8]), 3, 4), 2);
}

/// No return takes rule 2 away, and rule 1 comes before it.
#[test]
fn rule_2_beside_the_others() {
    assert_eq!(pair(&chart_y([3, 3], &[(3, 1), (6, 4)]), 2, 5), 2);
    assert_eq!(pair(&chart_y([3, 4], &[(3, 1), (6, 4)]), 2, 5), 0);
    let mut parted = ChartBuilder::of_edition(masked::EDITION);
    parted.barrier();
    for _ in 0..2 {
        let own = parted.masked(NONE, 5);
        parted.begin(own);
        parted.plain(own);
        parted.end(own);
        parted.barrier();
    }
    parted.row();
    assert_eq!(pair(&parted.bytes(), 2, 6), 1);
    parted.edge(3, 5);
    assert_eq!(pair(&parted.bytes(), 2, 6), 2);
}

#[test]
fn row_2_editions() {
    for (edition, number) in [
        (0, -2),
        (3, -2),
        (256, -2),
        (258, -2),
        (514, -2),
        (2, 66_056),
    ] {
        let chart = with_field(chart_y([1, 2], &[]), 0, edition);
        assert_eq!(admit(&chart), number, "edition {edition}");
    }
    let closing = with_field(chart_y([1, 2], &[]), 7, 0x4F43);
    assert_eq!(admit(&closing), -2);
}

/// Without constructs the editions have the same bytes but for their number.
#[test]
fn no_constructs() {
    let chart = with_field(chart_k(), 0, 2);
    assert_eq!(chart.len(), 46);
    assert_eq!(admit(&chart), 197_381);
    assert_eq!(pair(&chart, 1, 3), 0);
}

#[test]
fn row_3_in_edition_2() {
    for (field, value) in [(1, 1), (1, 193), (2, 0), (2, 1025), (3, 49)] {
        let chart = with_field(chart_y([1, 2], &[]), field, value);
        assert_eq!(admit(&chart), -3, "field {field}, {value}");
    }
}

#[test]
fn row_4_in_edition_2() {
    for (field, value) in [(4, 74), (5, 42), (6, 28)] {
        let number = |value: usize| admit(&with_field(chart_y([1, 2], &[]), field, value));
        assert_eq!(number(value), 66_056);
        for wrong in [value - 1, value + 1, value + 256, value - 4, value - 2] {
            assert_eq!(number(wrong), -4, "field {field}, {wrong}");
        }
    }
    for constructs in [0, 1, 3] {
        let chart = with_field(chart_y([1, 2], &[]), 3, constructs);
        assert_eq!(admit(&chart), -4, "{constructs} constructs");
    }
    let chart = chart_y([1, 2], &[]);
    assert_eq!(admit(&chart[1..]), -4);
    assert_eq!(admit(&[&[0], &chart[..]].concat()), -4);
}

/// Records of one edition under the number of the other: the distances are right for the bytes.
#[test]
fn row_4_by_edition() {
    let single = chart_s(Construct::SINGLE, &[]);
    assert_eq!((single.len(), admit(&single)), (48, 66_053));
    assert_eq!(admit(&with_field(single.clone(), 0, 2)), -4);
    let wide = rewritten(&single).bytes();
    assert_eq!((wide.len(), admit(&wide)), (50, 66_053));
    assert_eq!(admit(&with_field(wide, 0, 1)), -4);
    // 12 bytes are two records of six, or three of four: the second has kind 0 then
    let three = with_field(chart_y([0, 0], &[]), 0, 1);
    assert_eq!(admit(&with_field(three, 3, 3)), -6);
}

#[test]
fn row_6_a_filter_on_another_kind() {
    for kind in [1, 3, 4] {
        let mut chart = rewritten(&chart_s(kind, &[]));
        assert_eq!(admit(&chart.bytes()), 66_053, "kind {kind}");
        for filter in [1, 255, 256, 65_535] {
            chart.constructs[0].filter = filter;
            assert_eq!(admit(&chart.bytes()), -6, "kind {kind}, {filter}");
        }
    }
    for (chart, construct) in [(chart_d(&[]), 1), (chart_x(&[]), 0), (chart_x(&[]), 2)] {
        let mut chart = rewritten(&chart);
        assert!(admit(&chart.bytes()) > 0);
        chart.constructs[construct].filter = 256;
        assert_eq!(admit(&chart.bytes()), -6, "construct {construct}");
    }
}

#[test]
fn row_6_a_masked_construct() {
    for filter in [0, 1, 255, 256, 65_535] {
        let mut chart = rewritten(&chart_s(Construct::MASTER, &[]));
        chart.constructs[0].filter = filter;
        assert_eq!(admit(&chart.bytes()), 66_053, "filter {filter}");
        assert_eq!(pair(&chart.bytes(), 2, 2), 2, "filter {filter}");
        chart.constructs[0].name = 1;
        assert_eq!(admit(&chart.bytes()), -6, "a name");
        chart.constructs[0].name = 0;
        chart.constructs[0].parent = 0;
        assert_eq!(admit(&chart.bytes()), -6, "its own parent");
    }
    let mut nested = ChartBuilder::of_edition(masked::EDITION);
    let outer = nested.masked(NONE, 1);
    let inner = nested.masked(outer, 2);
    nested.barrier();
    nested.begin(outer);
    nested.begin(inner);
    nested.end(inner);
    nested.end(outer);
    nested.barrier();
    nested.row();
    assert_eq!(admit(&nested.bytes()), -6, "a masked in a masked");
}

#[test]
fn row_6_has_its_place_between_rows_5_and_7() {
    let mut chart = rewritten(&chart_s(Construct::SINGLE, &[]));
    chart.constructs[0].filter = 1;
    chart.nodes[3].kind = Node::PLAIN;
    assert_eq!(admit(&chart.bytes()), -6, "the single has no end either");
    chart.nodes[2].construct = 1;
    assert_eq!(admit(&chart.bytes()), -5);
}

/// All that the calls give of a chart.
fn all_of(chart: &[u8]) -> (i64, Vec<u8>, Vec<u8>) {
    let (mut masks, mut answers) = (vec![0; 16 * 192], vec![0; 192 * 192]);
    phases(chart, &mut masks);
    sheet(chart, &mut answers);
    (admit(chart), masks, answers)
}

/// "Edition 1 is still read, with filter 0": written in edition 2 with that filter, a chart is the same.
#[test]
fn edition_1_is_edition_2_with_filter_0() {
    let through_barrier = chart_s_through_barrier();
    let returning = chart_s(Construct::MASTER, &[(3, 1)]);
    for chart in [
        chart_k(),
        chart_s(Construct::SINGLE, &[]),
        chart_s(Construct::SINGLE, &[(3, 1)]),
        returning,
        chart_s(Construct::CRITICAL, &[]),
        through_barrier,
        chart_d(&[]),
        chart_d(&[(5, 1)]),
        chart_x(&[]),
        figure_2b(),
        row(2, 2),
    ] {
        let second = rewritten(&chart);
        assert_eq!(all_of(&second.bytes()), all_of(&chart));
        let read = decode_checked(&chart).unwrap();
        assert!(read.constructs.iter().all(|x| x.filter == 0));
    }
}

#[test]
fn the_longest_chart() {
    let chart = longest();
    assert_eq!(chart.len(), 3_120);
    assert_eq!(MOST_BYTES, 3_120);
    assert_eq!(admit(&chart), 192 + 256 * 2 + 65_536);
    let printed = text(&chart);
    assert!(printed.starts_with("chart 192 nodes 2 barriers 1 phases\nnode 1 starts 1 ends 2\n"));
    assert!(printed.ends_with("pair 190 190 0\n"));
    let longer = [&[0], &chart[..]].concat();
    assert_eq!(text(&longer), "refused 4\n");
    assert_eq!(text(&[0; 3_120]), "refused 2\n");
    assert_eq!(text(&[0; 3_121]), "refused 4\n");
    assert_eq!(text(&chart[96..]), "refused 4\n", "by its length");
}
