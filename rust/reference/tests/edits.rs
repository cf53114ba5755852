//! Asking about an edge, putting it in and taking it out: receipts, refusals in their order, and every byte of
//! the buffer. And the program's text.

use reference::builder::ChartBuilder;
use reference::chart::{Chart, Construct, Edge};
use reference::edits::{ask, input, insert, remove, text, Numbers, Receipt, MOST_BUFFER};
use reference::known::*;
use reference::refusals::decode_checked;

const FILL: u8 = 0xAA;

fn edge((from, to): (u8, u8)) -> Edge {
    Edge { from, to }
}

fn single() -> Vec<u8> {
    chart_s(Construct::SINGLE, &[])
}

/// What is asked of a chart that fills its buffer: the place, or a refusal.
fn asked(chart: &[u8], pair: (u8, u8)) -> Result<usize, u8> {
    let receipt = ask(chart, chart.len(), edge(pair))?;
    assert_eq!(receipt.length, chart.len());
    Ok(receipt.place)
}

/// A chart with bytes behind it.
fn buffer(chart: &[u8], room: usize) -> Vec<u8> {
    [chart, &vec![FILL; room]].concat()
}

/// A receipt as two numbers.
fn receipt(length: usize, place: usize) -> Receipt {
    Receipt { length, place }
}

#[test]
fn places_and_refusals() {
    let chart = single();
    assert_eq!(chart.len(), 48);
    for (pair, place) in [((3, 1), 3), ((1, 3), 2), ((0, 4), 1), ((2, 2), 2)] {
        assert_eq!(asked(&chart, pair), Ok(place), "{pair:?}");
    }
    let refused = [
        (3, 3),
        (0, 0),
        (4, 1),
        (2, 1),
        (1, 4),
        (5, 1),
        (1, 5),
        (0, 3),
        (255, 255),
        // there already
        (1, 2),
    ];
    for pair in refused {
        assert_eq!(asked(&chart, pair), Err(9), "{pair:?}");
    }
    assert_eq!(asked(&chart_y([1, 2], &[]), (3, 1)), Ok(3));
    assert_eq!(asked(&chart_x(&[]), (4, 5)), Err(9));
    assert_eq!(asked(&chart_z(&[]), (6, 1)), Ok(6));
    assert_eq!(asked(&chart_k(), (4, 0)), Err(9));
}

/// Numbers that fit no byte name no node, whatever byte they would be cut to: 9, or 3 before it, and 19.
#[test]
fn numbers_over_a_byte() {
    let chart = single();
    let longer = chart_s(Construct::SINGLE, &[(3, 1)]);
    for (from, to) in [
        (259, 1),
        (3, 257),
        (256, 256),
        (3 + (1 << 32), 1),
        (usize::MAX, 1),
        (3, usize::MAX),
    ] {
        let numbers = Numbers { from, to };
        assert_eq!(ask(&chart, 48, numbers), Err(9), "{numbers:?}");
        assert_eq!(ask(&chart, 47, numbers), Err(2), "{numbers:?}");
        assert_eq!(ask(&chart, 49, numbers), Err(4), "{numbers:?}");
        assert_eq!(ask(&longest(), 3_120, numbers), Err(3), "{numbers:?}");
        let mut bytes = buffer(&chart, 2);
        assert_eq!(insert(&mut bytes, 48, receipt(48, 3), numbers), -9);
        assert_eq!(bytes, buffer(&chart, 2));
        let mut bytes = longer.clone();
        assert_eq!(remove(&mut bytes, 50, numbers), -19);
        assert_eq!(bytes, longer);
    }
}

/// A length beyond the buffer is 4, whatever the bytes are; a length within it is that of a chart or is not.
#[test]
fn lengths() {
    let chart = single();
    for length in [49, 50, usize::MAX] {
        assert_eq!(ask(&chart, length, edge((3, 1))), Err(4));
        assert_eq!(ask(&[0; 48], length, edge((9, 9))), Err(4));
    }
    assert_eq!(ask(&[], 1, edge((3, 1))), Err(4));
    assert_eq!(ask(&[], 0, edge((3, 1))), Err(1));
    assert_eq!(ask(&chart, 15, edge((3, 1))), Err(1));
    assert_eq!(ask(&chart, 47, edge((3, 1))), Err(2));
    let long = buffer(&chart, 10);
    assert_eq!(ask(&long, 48, edge((3, 1))), Ok(receipt(48, 3)));
    assert_eq!(ask(&long, 49, edge((3, 1))), Err(2));
}

/// Row 3 comes before row 9: one edge over the limit is 3 also where it is there already.
#[test]
fn a_full_edge_table() {
    let chart = longest();
    for pair in [(100, 50), (0, 1), (191, 0), (255, 255)] {
        assert_eq!(asked(&chart, pair), Err(3), "{pair:?}");
    }
    let mut fewer = ChartBuilder::from_chart(&decode_checked(&chart).expect("the longest"));
    fewer.edges.retain(|&x| x != edge((0, 5)));
    let fewer = fewer.bytes();
    assert_eq!(asked(&fewer, (0, 5)), Ok(4));
    assert_eq!(asked(&fewer, (0, 6)), Err(9));
    let mut buffer = buffer(&fewer, 2);
    assert_eq!(
        insert(&mut buffer, 3_118, receipt(3_118, 4), edge((0, 5))),
        3_120
    );
    assert_eq!(buffer, chart);
}

/// The bytes of chart S single with edge 3-1, spelt out.
#[test]
fn the_longer_chart() {
    let mut bytes = buffer(&single(), 5);
    assert_eq!(insert(&mut bytes, 48, receipt(48, 3), edge((3, 1))), 50);
    assert_eq!(bytes[..20], single()[..20]);
    assert_eq!(bytes[20..30], [0, 1, 1, 2, 2, 3, 3, 1, 3, 4]);
    assert_eq!(bytes[30..34], single()[28..32]);
    let trailer = [1, 0, 5, 0, 5, 0, 1, 0, 50, 0, 30, 0, 20, 0, 0x4F, 0x43];
    assert_eq!(bytes[34..50], trailer);
    assert_eq!(bytes[50..], [FILL; 3]);
    assert_eq!(bytes[..50], chart_s(Construct::SINGLE, &[(3, 1)]));
}

#[test]
fn edition_2_and_an_inner_region() {
    let mut bytes = buffer(&chart_y([1, 2], &[]), 2);
    assert_eq!(insert(&mut bytes, 74, receipt(74, 3), edge((3, 1))), 76);
    assert_eq!(bytes, chart_y([1, 2], &[(3, 1)]));
    let mut bytes = buffer(&chart_z(&[]), 2);
    assert_eq!(insert(&mut bytes, 70, receipt(70, 6), edge((6, 1))), 72);
    assert_eq!(bytes, chart_z(&[(6, 1)]));
}

#[test]
fn tags_stay() {
    let mut tagged = single();
    for node in 0..5 {
        tagged[4 * node + 2] = 7;
        tagged[4 * node + 3] = node as u8;
    }
    let mut bytes = buffer(&tagged, 2);
    assert_eq!(insert(&mut bytes, 48, receipt(48, 3), edge((3, 1))), 50);
    assert_eq!(bytes[..20], tagged[..20]);
}

/// Asking comes before the receipt, the receipt before the room; what is refused writes nothing.
#[test]
fn refusals_at_commit_in_order() {
    let chart = single();
    let right = receipt(48, 3);
    for (room, length, receipt, pair, row) in [
        (2, 51, right, (3, 1), 4),
        (0, 49, receipt(0, 0), (2, 1), 4),
        (2, 47, receipt(48, 9), (3, 1), 2),
        (2, 48, right, (2, 1), 9),
        (0, 48, right, (2, 1), 9),
        (1, 48, receipt(47, 3), (2, 1), 9),
        (2, 48, receipt(48, 2), (3, 1), 17),
        (1, 48, receipt(48, 2), (3, 1), 17),
        (0, 48, receipt(50, 3), (3, 1), 17),
        (9, 48, receipt(46, 3), (3, 1), 17),
        (9, 48, receipt(48, 4), (3, 1), 17),
        (1, 48, right, (3, 1), 18),
        (0, 48, right, (3, 1), 18),
    ] {
        let mut bytes = buffer(&chart, room);
        let number = insert(&mut bytes, length, receipt, edge(pair));
        assert_eq!(number, -row, "{room} {length} {receipt:?} {pair:?}");
        assert_eq!(bytes, buffer(&chart, room));
    }
}

/// A receipt that was given before another edge went in is refused, though its place would be right; a
/// receipt of one edge serves another of the same place.
#[test]
fn stale_receipts() {
    let mut bytes = buffer(&single(), 10);
    let old = ask(&bytes, 48, edge((3, 1))).expect("a receipt");
    let first = ask(&bytes, 48, edge((1, 3))).expect("a receipt");
    assert_eq!(insert(&mut bytes, 48, first, edge((1, 3))), 50);
    let kept = bytes.clone();
    assert_eq!(insert(&mut bytes, 50, old, edge((3, 1))), -17);
    assert_eq!(insert(&mut bytes, 48, old, edge((3, 1))), -2);
    assert_eq!(bytes, kept);
    let new = ask(&bytes, 50, edge((3, 1))).expect("a receipt");
    assert_eq!(new, receipt(50, 4));
    assert_eq!(insert(&mut bytes, 50, new, edge((3, 1))), 52);
    let mut bytes = buffer(&single(), 2);
    assert_eq!(insert(&mut bytes, 48, first, edge((2, 2))), 50);
}

/// The longer chart of any edge of chart K is the chart that has it, or is refused as that one is.
#[test]
fn every_edge_of_chart_k() {
    let chart = chart_k();
    let builder = ChartBuilder::from_chart(&decode_checked(&chart).expect("chart K"));
    for from in 0..=6 {
        for to in 0..=6 {
            let mut longer = builder.clone();
            longer.edge(from, to);
            longer.edges.sort_unstable();
            let longer = longer.bytes_unsorted();
            let known: Result<Chart, u8> = decode_checked(&longer);
            let pair = (from as u8, to as u8);
            let mut bytes = buffer(&chart, 2);
            match (asked(&chart, pair), known) {
                (Ok(place), Ok(_)) => {
                    let number = insert(&mut bytes, 46, receipt(46, place), edge(pair));
                    assert_eq!(number, 48, "{pair:?}");
                    assert_eq!(bytes, longer, "{pair:?}");
                }
                (asked, known) => assert_eq!(asked.err(), known.err(), "{pair:?}"),
            }
        }
    }
}

/// What removal gives and leaves in a buffer with three bytes more.
fn removed(chart: &[u8], pair: (u8, u8)) -> (i64, Vec<u8>) {
    let mut bytes = buffer(chart, 3);
    let number = remove(&mut bytes, chart.len(), edge(pair));
    (number, bytes)
}

/// The present chart first, then 19, then the shorter chart; what is refused writes nothing.
#[test]
fn refusals_of_removal_in_order() {
    let (chart, looped) = (single(), chart_s(Construct::SINGLE, &[(1, 3)]));
    let two = row(2, 2);
    for (chart, pair, row) in [
        (&chart, (4, 0), 19),
        (&chart, (1, 3), 19),
        (&chart, (255, 255), 19),
        (&chart, (0, 1), 10),
        (&chart, (1, 2), 10),
        (&chart, (2, 3), 10),
        (&chart, (3, 4), 10),
        (&looped, (1, 2), 10),
        (&chart_x(&[]), (1, 2), 10),
        // the only edge: row 3 comes before row 10
        (&two, (0, 1), 3),
        (&two, (1, 0), 19),
    ] {
        assert_eq!(removed(chart, pair), (-row, buffer(chart, 3)), "{pair:?}");
    }
    let mut cut = chart.clone();
    cut[0] = 9;
    assert_eq!(removed(&cut, (4, 0)).0, -5);
    assert_eq!(removed(&chart[..15], (0, 1)).0, -1);
    for length in [52, 53, usize::MAX] {
        let mut bytes = buffer(&chart, 3);
        assert_eq!(remove(&mut bytes, length, edge((4, 0))), -4);
        assert_eq!(remove(&mut bytes, length, edge((1, 2))), -4);
        assert_eq!(bytes, buffer(&chart, 3));
    }
}

/// The gap is closed, the two bytes that are freed are 0, and what follows stays.
#[test]
fn the_shorter_chart() {
    let (number, bytes) = removed(&chart_s(Construct::SINGLE, &[(3, 1)]), (3, 1));
    assert_eq!(number, 48);
    assert_eq!(bytes[..48], single());
    assert_eq!(bytes[48..], [0, 0, FILL, FILL, FILL]);
    let (number, bytes) = removed(&chart_y([1, 2], &[(3, 1)]), (3, 1));
    assert_eq!(number, 74);
    assert_eq!(bytes[..74], chart_y([1, 2], &[]));
}

/// "Putting in and then taking out the same edge brings back every byte of the old chart", tags among them;
/// the two bytes past it are 0 then.
#[test]
fn there_and_back() {
    for mut chart in [
        single(),
        chart_d(&[]),
        chart_x(&[]),
        chart_y([1, 2], &[]),
        chart_z(&[]),
    ] {
        let nodes = decode_checked(&chart).expect("a known chart").nodes.len();
        (0..nodes).for_each(|node| chart[4 * node + 3] = FILL);
        let mut trips = 0;
        for from in 0..nodes as u8 {
            for to in 0..nodes as u8 {
                let mut bytes = buffer(&chart, 5);
                let Ok(receipt) = ask(&bytes, chart.len(), edge((from, to))) else {
                    continue;
                };
                let longer = insert(&mut bytes, chart.len(), receipt, edge((from, to)));
                assert_eq!(longer, chart.len() as i64 + 2);
                let shorter = remove(&mut bytes, longer as usize, edge((from, to)));
                assert_eq!(shorter, chart.len() as i64);
                let tail = [0, 0, FILL, FILL, FILL];
                assert_eq!(bytes, [&chart[..], &tail].concat());
                trips += 1;
            }
        }
        assert!(trips > 2, "{trips}");
    }
}

#[test]
fn text_of_the_program() {
    let chart = single();
    let asked = |pair, length, buffer: &[u8]| text(&input(edge(pair), length, buffer));
    assert_eq!(asked((3, 1), 48, &chart), "length 48 place 3\n");
    assert_eq!(asked((2, 1), 48, &chart), "refused 9\n");
    assert_eq!(asked((3, 1), 49, &chart), "refused 4\n");
    assert_eq!(
        asked((3, 1), 48, &buffer(&chart, 60)),
        "length 48 place 3\n"
    );
    assert_eq!(asked((3, 1), 0, &[]), "refused 1\n");
    for short in [&[][..], &[3], &[3, 1], &[3, 1, 0]] {
        assert_eq!(text(short), "input too short\n");
    }
    let most = buffer(&chart, MOST_BUFFER - 48);
    assert_eq!(asked((3, 1), 48, &most), "length 48 place 3\n");
    assert_eq!(asked((3, 1), 65_535, &most), "refused 2\n");
    let over = buffer(&chart, MOST_BUFFER - 47);
    assert_eq!(asked((3, 1), 48, &over), "input too long\n");
}
