//! Race verdicts (02, Note 9): each condition of the three verdicts, the order of a result's bytes, and
//! refusal 20 in its place.

use reference::chart::Construct;
use reference::known::*;
use reference::races::write;
use reference::regions::OUTERMOST;

const READ: u8 = 0;
const WRITE: u8 = 1;
const FILL: u8 = 0xAA;

/// An access by its node, write byte and variable.
type Access = (u8, u8, u16);

fn list(accesses: &[Access]) -> Vec<u8> {
    let record = |&(node, write, variable): &Access| {
        let [low, high] = variable.to_le_bytes();
        [node, write, low, high]
    };
    accesses.iter().flat_map(record).collect()
}

/// What is written for accesses in a region.
fn races_in(chart: &[u8], region: u8, accesses: &[Access]) -> Vec<u8> {
    let count = accesses.len() * (accesses.len() + 1) / 2;
    let mut out = vec![FILL; count + 3];
    let number = write(chart, region.into(), &list(accesses), &mut out);
    assert_eq!(number, count as i64);
    assert_eq!(out.split_off(count), [FILL; 3], "bytes past the result");
    out
}

fn races(chart: &[u8], accesses: &[Access]) -> Vec<u8> {
    races_in(chart, OUTERMOST, accesses)
}

#[test]
fn one_access_by_two_threads() {
    let critical = chart_s(Construct::CRITICAL, &[]);
    assert_eq!(races(&critical, &[(2, WRITE, 0)]), [1]);
    assert_eq!(races(&critical, &[(2, READ, 0)]), [0]);
    assert_eq!(
        races(&chart_s(Construct::SINGLE, &[]), &[(2, WRITE, 0)]),
        [0]
    );
    assert_eq!(races(&chart_k(), &[(1, WRITE, 0)]), [2]);
    assert_eq!(races(&chart_k(), &[]), []);
}

#[test]
fn variables_and_reads() {
    let chart = chart_s(Construct::CRITICAL, &[]);
    for (accesses, expected) in [
        ([(2, WRITE, 7), (2, READ, 8)], [1, 0, 0]),
        ([(2, WRITE, 7), (2, READ, 7)], [1, 1, 0]),
        ([(2, READ, 7), (2, WRITE, 7)], [0, 1, 1]),
        ([(2, READ, 7), (2, READ, 7)], [0, 0, 0]),
        ([(2, WRITE, 7), (2, WRITE, 7)], [1, 1, 1]),
        // both bytes of a variable count
        ([(2, WRITE, 0), (2, WRITE, 256)], [1, 0, 1]),
        ([(2, WRITE, 1), (2, WRITE, 257)], [1, 0, 1]),
        ([(2, WRITE, 65_535), (2, READ, 65_535)], [1, 1, 0]),
        // a begin is not inside
        ([(1, WRITE, 7), (2, WRITE, 7)], [2, 2, 1]),
        ([(3, WRITE, 7), (2, READ, 7)], [2, 2, 0]),
    ] {
        assert_eq!(races(&chart, &accesses), expected, "{accesses:?}");
    }
}

/// Names at any depth count, the unnamed ones have name 0, and other constructs have none.
#[test]
fn common_names() {
    let (critical, single) = (Construct::CRITICAL, Construct::SINGLE);
    for (one, other, race) in [
        (&[(critical, 5)][..], &[(critical, 5)][..], 1),
        (&[(critical, 5)], &[(critical, 7)], 2),
        (&[(critical, 5), (critical, 7)], &[(critical, 7)], 1),
        (&[(critical, 5), (critical, 7)], &[(critical, 5)], 1),
        (
            &[(critical, 5), (critical, 7)],
            &[(critical, 7), (critical, 5)],
            1,
        ),
        (
            &[(critical, 5), (critical, 7)],
            &[(critical, 6), (critical, 8)],
            2,
        ),
        (&[(critical, 0)], &[(critical, 0)], 1),
        (&[(critical, 0)], &[], 2),
        (&[(critical, 1)], &[(critical, 257)], 2),
        (&[(single, 0)], &[(critical, 0)], 2),
        (&[(single, 0), (critical, 3)], &[(critical, 3)], 1),
    ] {
        let (chart, plain) = in_a_row(&[one, other]);
        let accesses = [(plain[0], WRITE, 1), (plain[1], READ, 1)];
        assert_eq!(races(&chart, &accesses)[1], race, "{one:?} {other:?}");
    }
}

/// Never comes before the names: one critical in a single that does not return.
#[test]
fn nodes_that_never_meet_have_no_race() {
    let chain = [(Construct::SINGLE, 0), (Construct::CRITICAL, 3)];
    let (chart, plain) = in_a_row(&[&chain]);
    assert_eq!(races(&chart, &[(plain[0], WRITE, 1)]), [0]);
    let figure = figure_2b();
    assert_eq!(
        races(&figure, &[(7, WRITE, 1), (8, WRITE, 1)]),
        [2, 0, 2],
        "no common end"
    );
    let x = chart_x(&[]);
    assert_eq!(races(&x, &[(3, WRITE, 1), (5, WRITE, 1)]), [0, 2, 0]);
}

/// "By i and then j, i not above j."
#[test]
fn the_order_of_pairs() {
    let accesses = [(1, WRITE, 1), (3, READ, 1), (1, READ, 2), (3, WRITE, 2)];
    let expected = [2, 2, 0, 0, 0, 0, 0, 0, 2, 2];
    assert_eq!(races(&chart_k(), &accesses), expected);
}

/// Of a region the criticals that are its own: deeper ones count for nothing, and nor do those around it.
#[test]
fn regions() {
    let inner = one_region(|chart, region| {
        let critical = chart.construct(Construct::CRITICAL, region, 0);
        chart.begin(critical);
        chart.plain(critical);
        chart.end(critical);
    });
    let inner = inner.bytes();
    assert_eq!(races_in(&inner, OUTERMOST, &[(3, WRITE, 0)]), [2]);
    assert_eq!(races_in(&inner, 0, &[(3, WRITE, 0)]), [1]);
    let around = nested(&[(Construct::CRITICAL, 0), (Construct::PARALLEL, 0)], true);
    let around = around.bytes();
    assert_eq!(races_in(&around, OUTERMOST, &[(3, WRITE, 0)]), [1]);
    assert_eq!(races_in(&around, 1, &[(3, WRITE, 0)]), [2]);
    let single = chart_z(&[]);
    assert_eq!(races_in(&single, OUTERMOST, &[(3, WRITE, 0)]), [2]);
    assert_eq!(races_in(&single, 0, &[(3, WRITE, 0)]), [0]);
}

#[test]
fn refused_lists() {
    let chart = chart_z(&[]);
    let refused = |region: u64, list: &[u8], row: i64| {
        for room in [0, 1, 100] {
            let mut out = vec![FILL; room];
            assert_eq!(write(&chart, region, list, &mut out), -row, "{list:?}");
            assert_eq!(out, vec![FILL; room]);
        }
    };
    let good = [3, WRITE, 0, 0];
    for wrong in [
        &[3][..],
        &[3, WRITE, 0],
        &[3, WRITE, 0, 0, 3],
        &[0, WRITE, 0, 0],
        &[7, WRITE, 0, 0],
        &[8, WRITE, 0, 0],
        &[255, WRITE, 0, 0],
        &[3, 2, 0, 0],
        &[3, 255, 0, 0],
    ] {
        refused(255, wrong, 20);
        refused(255, &[&good, wrong].concat(), 20);
        refused(1, wrong, 23);
        refused(256, wrong, 23);
    }
    refused(0, &[1, WRITE, 0, 0], 20);
    refused(0, &[5, READ, 0, 0], 20);
    refused(0, &[6, READ, 0, 0], 20);
    let mut broken = chart.clone();
    broken[0] = 9;
    assert_eq!(write(&broken, 9, &[3], &mut []), -5, "10 and before first");
}

#[test]
fn rooms_and_lengths() {
    let chart = chart_k();
    for count in [1, 2, 5, 100, 1_024] {
        let long = [1, WRITE, 0, 0].repeat(count);
        let length = count * (count + 1) / 2;
        let mut out = vec![FILL; length + 1];
        assert_eq!(write(&chart, 255, &long, &mut out[..length - 1]), -11);
        assert_eq!(out, vec![FILL; length + 1]);
        assert_eq!(write(&chart, 255, &long, &mut out), length as i64);
        assert!(out[..length].iter().all(|&race| race == 2));
        assert_eq!(out[length], FILL);
    }
    assert_eq!(write(&chart, 255, &[], &mut []), 0);
    let mut out = vec![FILL; 600_000];
    for count in [1_025, 4_096, 70_000] {
        let long = [1, WRITE, 0, 0].repeat(count);
        assert_eq!(write(&chart, 255, &long, &mut out), -20);
        assert_eq!(write(&chart, 255, &long, &mut []), -20, "before 11");
    }
    assert!(out.iter().all(|&byte| byte == FILL));
}
