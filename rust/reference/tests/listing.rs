//! Charts from a listing: lengths, counts and refusals by hand, some charts byte by byte, and what the program
//! prints.

use reference::builder::ChartBuilder;
use reference::calls::admit;
use reference::chart::Construct;
use reference::known::{chart_d, chart_s, row};
use reference::known_listings::known;
use reference::listing::{chart, listing, text, MOST_TEXT};

const FILL: u8 = 0xA5;

#[test]
fn known_listings() {
    for (text, number, counts) in known() {
        let mut out = [FILL; 1_600];
        assert_eq!(listing(text.as_bytes(), &mut out), number, "{text}");
        let length = number.max(0) as usize;
        assert!(out[length..].iter().all(|&byte| byte == FILL), "{text}");
        if number > 0 {
            assert_eq!(admit(&out[..length]), counts, "{text}");
        } else {
            assert_eq!(chart(text.as_bytes()), Err(-number as u8), "{text}");
        }
    }
}

#[test]
fn room_comes_last() {
    for room in 0..60 {
        let mut out = vec![FILL; room];
        let number = if room < 48 { -11 } else { 48 };
        assert_eq!(listing(b"S{}", &mut out), number, "{room}");
        if room < 48 {
            assert!(out.iter().all(|&byte| byte == FILL), "{room}");
        }
        let refused = [(&b"x"[..], -14), (b"C{b}", -5), (b"O{}", -6)];
        for (text, number) in refused {
            assert_eq!(listing(text, &mut out), number, "{room}");
        }
        assert_eq!(listing("b".repeat(63).as_bytes(), &mut out), -8);
    }
}

/// The charts of 01 that a listing can spell.
#[test]
fn known_charts() {
    assert_eq!(chart(b""), Ok(row(2, 2)));
    assert_eq!(chart(b"S{s}n"), Ok(chart_s(Construct::SINGLE, &[])));
    assert_eq!(chart(b"M{s}"), Ok(chart_s(Construct::MASTER, &[])));
    assert_eq!(chart(b"C{s}"), Ok(chart_s(Construct::CRITICAL, &[])));
    assert_eq!(chart(b"D{s}n"), Ok(chart_s(Construct::DO, &[])));
    assert_eq!(chart(b"D{O{s}}n"), Ok(chart_d(&[])));
}

/// Nodes of no construct: barriers, and plain ones.
fn plain(kinds: &str, edges: &[(usize, usize)]) -> Vec<u8> {
    let mut chart = ChartBuilder::new();
    for kind in kinds.bytes() {
        match kind {
            b'b' => chart.barrier(),
            _ => chart.plain(Construct::NONE),
        };
    }
    for &(from, to) in edges {
        chart.edge(from, to);
    }
    chart.bytes()
}

#[test]
fn loops_and_branches() {
    // a loop's block leads back to its head, and the head on
    assert_eq!(chart(b"l{}"), Ok(plain("bsb", &[(0, 1), (1, 1), (1, 2)])));
    let expected = plain("bssb", &[(0, 1), (1, 2), (1, 3), (2, 1)]);
    assert_eq!(chart(b"l{s}"), Ok(expected));
    let expected = plain("bssb", &[(0, 1), (1, 2), (1, 3), (2, 1), (2, 2)]);
    assert_eq!(chart(b"l{l{}}"), Ok(expected));
    // a doubled edge is written once
    assert_eq!(
        chart(b"i{}{}"),
        Ok(plain("bssb", &[(0, 1), (1, 2), (2, 3)]))
    );
    let expected = [(0, 1), (1, 2), (1, 3), (2, 4), (3, 4), (4, 5)];
    assert_eq!(chart(b"i{s}{b}"), Ok(plain("bssbsb", &expected)));
    let expected = [(0, 1), (1, 2), (1, 3), (2, 2), (2, 3), (3, 4)];
    assert_eq!(chart(b"i{l{}}{}"), Ok(plain("bsssb", &expected)));
    // both blocks lead on from a branch in a loop to its join, and that leads back
    let expected = [(0, 1), (1, 2), (1, 5), (2, 3), (2, 4), (3, 4), (4, 1)];
    assert_eq!(chart(b"l{i{s}{}}"), Ok(plain("bssssb", &expected)));
}

/// Numbered as met: constructs by their letters, the following barrier behind the end, in the construct around.
#[test]
fn constructs() {
    let mut expected = ChartBuilder::new();
    let outer = expected.construct(Construct::DO, Construct::NONE, 0);
    let ordered = expected.construct(Construct::ORDERED, outer, 0);
    let critical = expected.construct(Construct::CRITICAL, outer, 0);
    let single = expected.construct(Construct::SINGLE, Construct::NONE, 0);
    expected.barrier();
    expected.begin(outer);
    expected.begin(ordered);
    expected.end(ordered);
    expected.begin(critical);
    expected.plain(critical);
    expected.end(critical);
    expected.end(outer);
    expected.barrier();
    expected.begin(single);
    expected.end(single);
    expected.barrier();
    expected.row();
    assert_eq!(chart(b"D{O{}C{s}}S{}n"), Ok(expected.bytes()));
}

#[test]
fn printed() {
    let expected = "chart 5 nodes 2 barriers 1 phases\n\
                    node 1 starts 1 ends 2\n\
                    node 2 starts 1 ends 2\n\
                    node 3 starts 1 ends 2\n\
                    pair 1 1 0\n\
                    pair 1 2 0\n\
                    pair 1 3 0\n\
                    pair 2 2 3\n\
                    pair 2 3 0\n\
                    pair 3 3 0\n";
    assert_eq!(text(b"S{s}n"), expected);
    assert_eq!(text(b"S{s}n\n"), "refused 14\n");
    assert_eq!(text(b""), "chart 2 nodes 2 barriers 0 phases\n");
    assert_eq!(text(&[b's'; MOST_TEXT]), "refused 16\n");
    assert_eq!(text(&[b's'; MOST_TEXT + 1]), "input too long\n");
}
