//! Refusals with regions inside regions (02, Note 12): what rows 5, 6, 8 and 9 say of them, with what
//! lies just inside it, and refusal 23 with its place.

use reference::builder::ChartBuilder;
use reference::calls::{admit, judge, pair, phases, sheet};
use reference::chart::{Construct, Node};
use reference::distances;
use reference::known::*;
use reference::masked;
use reference::refusals::decode_checked;

const NONE: u8 = Construct::NONE;
const SINGLE: u8 = Construct::SINGLE;
const CRITICAL: u8 = Construct::CRITICAL;
const DO: u8 = Construct::DO;
const ORDERED: u8 = Construct::ORDERED;
const SECTIONS: u8 = Construct::SECTIONS;
const SECTION: u8 = Construct::SECTION;
const PARALLEL: u8 = Construct::PARALLEL;

/// The outermost region.
const OUTER: u64 = 255;
const FILL: u8 = 0xAA;

/// Numbers that name no parallel of chart Z, among them those whose low byte is 255 or 0.
const NO_REGIONS: [u64; 11] = [
    1,
    2,
    3,
    48,
    254,
    256,
    257,
    511,
    1 << 32,
    (1 << 32) + 255,
    u64::MAX,
];

/// The number for a chart after a change of its records.
fn changed(chart: &[u8], change: impl Fn(&mut ChartBuilder)) -> i64 {
    let mut chart = ChartBuilder::from_chart(&decode_checked(chart).expect("a valid chart"));
    change(&mut chart);
    admit(&chart.bytes())
}

#[test]
fn refusal_23_is_for_what_names_no_parallel() {
    let chart = chart_z(&[]);
    for region in NO_REGIONS {
        assert_eq!(pair(&chart, region, 3, 3), -23, "{region}");
        assert_eq!(judge(&chart, region, &[3, 3]), -23, "{region}");
        let mut out = [FILL; 128];
        assert_eq!(phases(&chart, region, &mut out), -23, "{region}");
        assert_eq!(sheet(&chart, region, &mut out), -23, "{region}");
        assert_eq!(distances::write(&chart, region, &mut out), -23, "{region}");
        assert_eq!(out, [FILL; 128], "{region}");
    }
    assert_eq!(pair(&chart_k(), 0, 1, 3), -23, "no constructs at all");
}

/// "Straight after 10": before 11, 12 and 13, and after all that refuses the chart.
#[test]
fn refusal_23_has_its_place() {
    let chart = chart_z(&[]);
    assert_eq!(judge(&chart, 1, &[3]), -23);
    assert_eq!(judge(&chart, 1, &[0, 0]), -23);
    assert_eq!(pair(&chart, 254, 0, 99), -23);
    assert_eq!(phases(&chart, 256, &mut []), -23);
    assert_eq!(sheet(&chart, u64::MAX, &mut [0; 63]), -23);
    assert_eq!(phases(&chart, 0, &mut [0; 127]), -11);
    let mut cut = ChartBuilder::from_chart(&decode_checked(&chart).unwrap());
    cut.edges.remove(3);
    assert_eq!(pair(&cut.bytes(), 254, 3, 3), -10);
    assert_eq!(judge(&chart[1..], 254, &[3]), -4);
}

#[test]
fn row_5_barriers_and_the_regions_they_name() {
    let z = chart_z(&[]);
    assert_eq!(
        changed(&z, |x| x.nodes[5].construct = 1),
        -5,
        "names a single"
    );
    assert_eq!(changed(&z, |x| x.nodes[5].construct = 2), -5, "names none");
    assert_eq!(changed(&z, |x| x.nodes[5].construct = 254), -5);
    assert_eq!(changed(&z, |x| x.nodes[0].construct = 0), -5, "Start");
    assert_eq!(changed(&z, |x| x.nodes[7].construct = 0), -5, "Finish");
    assert_eq!(changed(&z, |x| x.nodes[5].construct = NONE), -9, "sides");
    // the raw kind decides; the construct falls in row 6
    let broken = |x: &mut ChartBuilder| x.constructs[0].name = 1;
    assert_eq!(changed(&z, broken), -6);
    let no_parallel = |x: &mut ChartBuilder| x.constructs[0].kind = 9;
    assert_eq!(changed(&z, no_parallel), -5, "before row 6");
}

#[test]
fn a_barrier_alone_in_a_construct() {
    let mut chart = nested(&[(PARALLEL, 0)], true);
    chart.nodes[2].kind = Node::BARRIER;
    assert_eq!(admit(&chart.bytes()), 66_053);
    assert_eq!(pair(&chart.bytes(), OUTER, 2, 2), 0);
    assert_eq!(pair(&chart.bytes(), 0, 2, 2), -13);
    chart.nodes[0].construct = 0;
    assert_eq!(admit(&chart.bytes()), -5);
    let mut single = nested(&[(SINGLE, 0)], true);
    single.nodes[2].kind = Node::BARRIER;
    assert_eq!(admit(&single.bytes()), -5);
}

#[test]
fn row_6_a_parallel_and_its_fields() {
    assert_eq!(changed(&chart_u(), |x| x.constructs[0].name = 256), -6);
    assert_eq!(changed(&chart_u(), |x| x.constructs[0].parent = 0), -6);
    let filtered = |x: &mut ChartBuilder| {
        x.edition = masked::EDITION;
        x.constructs[0].filter = 256;
    };
    assert_eq!(changed(&chart_u(), filtered), -6);
    assert_eq!(
        changed(&chart_s(SINGLE, &[]), |x| x.constructs[0].kind = 9),
        -6
    );
}

/// "A parallel may stand in any kind, though not directly in a sections."
#[test]
fn row_6_where_a_parallel_may_stand() {
    for kind in [1, 2, 3, 4, 8] {
        assert!(admit(&nested(&[(kind, 0), (PARALLEL, 0)], true).bytes()) > 0);
    }
    for above in [[(DO, 0), (ORDERED, 0)], [(SECTIONS, 0), (SECTION, 0)]] {
        let constructs = [&above[..], &[(PARALLEL, 0)]].concat();
        assert!(admit(&nested(&constructs, true).bytes()) > 0, "{above:?}");
    }
    let directly = nested(&[(SECTIONS, 0), (PARALLEL, 0)], true);
    assert_eq!(admit(&directly.bytes()), -6);
    let in_section_s_place = |x: &mut ChartBuilder| x.constructs[1].kind = PARALLEL;
    assert_eq!(changed(&chart_x(&[]), in_section_s_place), -6);
}

/// "Nesting starts anew inside each region."
#[test]
fn row_6_nesting_anew() {
    let number = |constructs: &[(u8, u16)]| admit(&nested(constructs, true).bytes());
    assert_eq!(
        number(&[(CRITICAL, 5), (PARALLEL, 0), (CRITICAL, 5)]),
        66_057
    );
    assert_eq!(number(&[(CRITICAL, 5), (CRITICAL, 5)]), -6);
    assert_eq!(
        number(&[(CRITICAL, 0), (PARALLEL, 0), (CRITICAL, 0)]),
        66_057
    );
    assert_eq!(number(&[(SINGLE, 0), (PARALLEL, 0), (SINGLE, 0)]), 66_057);
    let apart = [(PARALLEL, 0), (CRITICAL, 5), (CRITICAL, 6), (CRITICAL, 5)];
    assert_eq!(number(&apart), -6, "both in one region");
    assert_eq!(number(&[(SINGLE, 0), (PARALLEL, 0), (SECTIONS, 0)]), -6);
    let dealt = [(SINGLE, 0), (PARALLEL, 0), (SECTIONS, 0), (SECTION, 0)];
    assert_eq!(number(&dealt), 66_059);
    // an ordered's parent is a do, a section's a sections
    assert_eq!(number(&[(DO, 0), (PARALLEL, 0), (ORDERED, 0)]), -6);
    assert_eq!(
        number(&[(SECTIONS, 0), (SECTION, 0), (PARALLEL, 0), (SECTION, 0)]),
        -6
    );
    assert_eq!(number(&[(PARALLEL, 0), (SINGLE, 0), (DO, 0)]), -6);
}

/// So many barriers in one region, and then a plain node; so many in the outermost one, behind it.
fn barriers(inner: usize, outer: usize) -> Vec<u8> {
    let mut chart = one_region(|chart, region| {
        for _ in 0..inner {
            chart.barrier_of(region);
        }
        chart.plain(region);
    });
    for _ in 0..outer {
        let last = chart.barrier();
        chart.edge(last - 1, last);
    }
    chart.bytes()
}

/// 64 in each region, begin and end counted.
#[test]
fn row_8_barriers_are_counted_per_region() {
    let full = barriers(62, 62);
    assert_eq!(admit(&full), 129 + 256 * 64 + 65_536);
    let node = 2 + 62;
    assert_eq!(pair(&full, 0, node, node), 0);
    let mut out = [FILL; 16 * 192];
    assert!(phases(&full, 0, &mut out) > 0);
    let masks = &out[16 * node as usize..][..16];
    let word = |bytes: &[u8]| u64::from_le_bytes(bytes.try_into().unwrap());
    assert_eq!(word(&masks[..8]), 1 << 62, "the last barrier but one");
    assert_eq!(word(&masks[8..]), 1 << 63);
    assert_eq!(admit(&barriers(63, 0)), -8);
    assert_eq!(admit(&barriers(0, 63)), -8);
}

/// A begin is no barrier of the outermost region, also a parallel's.
#[test]
fn row_8_start_and_finish() {
    let mut chart = ChartBuilder::new();
    let region = chart.construct(PARALLEL, NONE, 0);
    chart.begin(region);
    chart.plain(region);
    chart.end(region);
    chart.barrier();
    chart.row();
    assert_eq!(admit(&chart.bytes()), -8);
}

/// An edge leads into a region by its begin alone, and out by its end.
#[test]
fn row_9_sides_of_a_region() {
    for (from, to, number) in [
        (1, 6, 66_056),
        (6, 1, 66_056),
        (2, 6, -9),
        (5, 2, 66_056),
        (1, 5, 66_056),
        (0, 5, -9),
        (5, 7, -9),
        (0, 2, -9),
        (6, 5, -9),
    ] {
        assert_eq!(admit(&chart_z(&[(from, to)])), number, "{from} {to}");
    }
}
