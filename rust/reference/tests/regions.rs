//! Regions inside regions (02, Note 12): charts Z, W, V, T and U as each region reads them, and nodes
//! outside.

use reference::calls::{admit, judge, pair, phases, sheet};
use reference::chart::Construct;
use reference::distances;
use reference::known::*;
use reference::masked;
use reference::printing::text;

const SINGLE: u8 = Construct::SINGLE;
const CRITICAL: u8 = Construct::CRITICAL;
const DO: u8 = Construct::DO;
const ORDERED: u8 = Construct::ORDERED;
const SECTIONS: u8 = Construct::SECTIONS;
const SECTION: u8 = Construct::SECTION;
const PARALLEL: u8 = Construct::PARALLEL;

/// The outermost region.
const OUTER: u64 = 255;
const FILL: u8 = 0xAA;

fn starts_and_ends(chart: &[u8], region: u64) -> Vec<(u8, u8)> {
    let mut out = [FILL; 16 * 12];
    let written = phases(chart, region, &mut out) as usize;
    let masks = out[..written].chunks(16);
    masks.map(|record| (record[0], record[8])).collect()
}

fn distances_of(chart: &[u8], region: u64) -> Vec<u8> {
    let mut out = [FILL; 12];
    let written = distances::write(chart, region, &mut out) as usize;
    out[..written].to_vec()
}

#[test]
fn chart_z_as_bytes() {
    let bytes = [
        1, 0xFF, 0, 0, 2, 0, 0, 0, 2, 1, 0, 0, 0, 1, 0, 0, 3, 1, 0, 0, 1, 0, 0, 0, 3, 0, 0, 0, 1,
        0xFF, 0, 0, 0, 1, 1, 2, 2, 3, 3, 4, 4, 5, 5, 6, 6, 7, 8, 0xFF, 0, 0, 1, 0, 0, 0, 1, 0, 8,
        0, 7, 0, 2, 0, 70, 0, 38, 0, 24, 0, 0x4F, 0x43,
    ];
    assert_eq!(chart_z(&[]), bytes);
    assert_eq!(bytes.len(), 70);
    assert_eq!(admit(&bytes), 66_056);
}

/// "A single in an inner team excludes no two outer threads"; in region 255 an inner barrier and a
/// parallel's begin and end are plain.
#[test]
fn answers_of_chart_z() {
    let chart = chart_z(&[]);
    for (region, a, b, answer) in [
        (OUTER, 3, 3, 0),
        (0, 3, 3, 3),
        (OUTER, 5, 5, 0),
        (OUTER, 1, 1, 0),
        (OUTER, 6, 3, 0),
        (0, 2, 3, 0),
        (0, 4, 4, 0),
        (0, 0, 3, -13),
        (0, 7, 3, -13),
        (0, 1, 1, -13),
        (0, 5, 5, -13),
        (0, 3, 6, -13),
        (0, 3, 8, -13),
        (0, 256 + 3, 3, -13),
        (OUTER, 0, 3, -13),
        (OUTER, 3, 7, -13),
    ] {
        assert_eq!(pair(&chart, region, a, b), answer, "{region}: {a} {b}");
    }
}

#[test]
fn judge_by_region() {
    let chart = chart_z(&[]);
    assert_eq!(judge(&chart, 0, &[3, 3]), 0);
    assert_eq!(judge(&chart, OUTER, &[3, 3]), 1);
    assert_eq!(judge(&chart, 0, &[3, 3, 2, 3]), 2);
    assert_eq!(judge(&chart, 0, &[]), 0);
    assert_eq!(judge(&chart, 0, &[3, 3, 3]), -12);
    assert_eq!(
        judge(&chart, 0, &[2, 3, 3, 7]),
        -13,
        "13 before the verdict"
    );
    assert_eq!(judge(&chart, 0, &[0, 3, 3]), -12, "12 before 13");
}

#[test]
fn chart_z_written_for_each_region() {
    let chart = chart_z(&[]);
    let inner = [
        (0, 0),
        (0, 0),
        (1, 2),
        (1, 2),
        (1, 2),
        (0, 0),
        (0, 0),
        (0, 0),
    ];
    assert_eq!(starts_and_ends(&chart, 0), inner);
    let outer = [
        (0, 0),
        (1, 2),
        (1, 2),
        (1, 2),
        (1, 2),
        (1, 2),
        (1, 2),
        (0, 0),
    ];
    assert_eq!(starts_and_ends(&chart, OUTER), outer);
    assert_eq!(distances_of(&chart, 0), [255, 255, 1, 2, 3, 255, 255, 255]);
    assert_eq!(distances_of(&chart, OUTER), [255, 1, 2, 3, 4, 5, 6, 255]);
    let mut out = [FILL; 70];
    assert_eq!(sheet(&chart, 0, &mut out), 64);
    let mut expected = [255; 64];
    for a in 2..5 {
        for b in 2..5 {
            expected[8 * a + b] = if (a, b) == (3, 3) { 3 } else { 0 };
        }
    }
    assert_eq!(out[..64], expected);
    assert_eq!(out[64..], [FILL; 6]);
}

/// "Admit's counts and the printing program's lines are the outermost region's."
#[test]
fn printed_lines_are_the_outermost_regions() {
    let printed = text(&chart_z(&[]));
    assert!(printed.starts_with("chart 8 nodes 2 barriers 1 phases\nnode 1 starts 1 ends 2\n"));
    assert!(printed.contains("node 5 starts 1 ends 2\n") && printed.contains("pair 3 3 0\n"));
    assert_eq!(printed.lines().count(), 1 + 6 + 21);
}

/// "Barriers are numbered .. per region", by rising node number: Start need not be the first of them,
/// nor Finish the last.
#[test]
fn chart_w_numbers_barriers_by_node() {
    let chart = chart_w();
    assert_eq!(chart.len(), 54);
    assert_eq!(admit(&chart), 66_054);
    let masks = starts_and_ends(&chart, 0);
    assert_eq!(masks, [(0, 0), (0, 0), (0, 0), (0, 0), (2, 1), (0, 0)]);
    assert_eq!(pair(&chart, 0, 4, 4), 0);
    assert_eq!(pair(&chart, 0, 1, 1), -13);
    assert_eq!(pair(&chart, OUTER, 1, 1), 0);
    assert_eq!(distances_of(&chart, 0), [255, 255, 255, 255, 1, 255]);
}

#[test]
fn chart_v_a_region_in_a_region() {
    let chart = chart_v();
    assert_eq!((chart.len(), admit(&chart)), (64, 66_055));
    for (region, a, answer) in [
        (OUTER, 1, 0),
        (OUTER, 2, 0),
        (OUTER, 3, 0),
        (0, 1, -13),
        (0, 2, 0),
        (0, 3, 0),
        (0, 4, 0),
        (0, 5, -13),
        (1, 2, -13),
        (1, 3, 0),
        (1, 4, -13),
    ] {
        assert_eq!(pair(&chart, region, a, a), answer, "{region}: {a}");
    }
    let none = (0, 0);
    let masks = [none, none, none, (1, 2), none, none, none];
    assert_eq!(starts_and_ends(&chart, 1), masks);
}

/// Nodes of a deeper region are inside the constructs around it: only deeper constructs count for
/// nothing.
#[test]
fn chart_t_constructs_around_a_region() {
    let chart = chart_t(SINGLE, &[]);
    for (region, a, answer) in [
        (OUTER, 4, 3),
        (OUTER, 3, 3),
        (OUTER, 2, 3),
        (OUTER, 1, 0),
        (1, 4, 3),
        (1, 3, 0),
        (1, 2, -13),
        (1, 7, -13),
        (0, 4, -23),
        (2, 4, -23),
    ] {
        assert_eq!(pair(&chart, region, a, a), answer, "{region}: {a}");
    }
    let returning = chart_t(SINGLE, &[(5, 3)]);
    assert_eq!(pair(&returning, 1, 4, 4), 0);
    assert_eq!(pair(&returning, OUTER, 4, 4), 3);
    assert_eq!(pair(&chart_t(SINGLE, &[(7, 1)]), 1, 4, 4), 3);
    assert_eq!(pair(&chart_t(SINGLE, &[(7, 1)]), OUTER, 4, 4), 0);
    assert_eq!(pair(&chart_t(CRITICAL, &[]), OUTER, 4, 4), 0);
    assert_eq!(pair(&chart_t(CRITICAL, &[]), 1, 4, 4), 3);
    assert_eq!(pair(&chart_t(Construct::MASTER, &[]), OUTER, 4, 4), 2);
    assert_eq!(pair(&chart_t(Construct::MASTER, &[]), 1, 4, 4), 3);
}

/// The edge from the parallel's end to its begin is cut away, so that the single does not return.
#[test]
fn chart_u_comes_back_outside() {
    let chart = chart_u();
    assert_eq!(pair(&chart, 0, 3, 3), 3);
    assert_eq!(pair(&chart, OUTER, 3, 3), 0);
    let around = chart_z(&[(6, 1)]);
    assert_eq!(pair(&around, 0, 3, 3), 3);
    assert_eq!(starts_and_ends(&around, 0)[3], (1, 2));
}

/// Sections, an ordered and a masked inside a region, and the same from outside.
#[test]
fn rules_inside_a_region() {
    let dealt = nested(&[(PARALLEL, 0), (SECTIONS, 0), (SECTION, 0)], true).bytes();
    assert_eq!(pair(&dealt, 0, 4, 4), 5);
    assert_eq!(pair(&dealt, 0, 3, 4), 5, "the section's begin");
    assert_eq!(pair(&dealt, OUTER, 4, 4), 0);
    let ordered = nested(&[(PARALLEL, 0), (DO, 0), (ORDERED, 0)], true).bytes();
    assert_eq!(pair(&ordered, 0, 4, 4), 4);
    assert_eq!(pair(&ordered, OUTER, 4, 4), 0);
    let mut filtered = nested(&[(2, 0), (PARALLEL, 0), (2, 0)], true);
    filtered.edition = masked::EDITION;
    filtered.constructs[0].filter = 1;
    filtered.constructs[2].filter = 2;
    assert_eq!(pair(&filtered.bytes(), OUTER, 4, 3), 2);
    assert_eq!(pair(&filtered.bytes(), 1, 4, 3), 0);
    assert_eq!(pair(&filtered.bytes(), 1, 4, 4), 2);
}

/// A section around a region: its begin and end, and those of the region, are inside it.
#[test]
fn a_region_in_a_section() {
    let chart = nested(&[(SECTIONS, 0), (SECTION, 0), (PARALLEL, 0)], true).bytes();
    for a in 2..=6 {
        for b in 2..=6 {
            assert_eq!(pair(&chart, OUTER, a, b), 5, "{a} {b}");
        }
    }
    assert_eq!(pair(&chart, 2, 4, 4), 0);
}
