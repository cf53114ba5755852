//! Refusals 9 and 10: each condition of the rows alone, the corner edges that are admitted, and the
//! order of all rows.

use reference::builder::ChartBuilder;
use reference::calls::admit;
use reference::chart::{Construct, Edge, Node};
use reference::known::*;
use reference::refusals::decode_checked;

/// The number for a known chart with its edges changed, kept in the order they then have.
fn changed(chart: Vec<u8>, change: fn(&mut Vec<Edge>)) -> i64 {
    let mut chart = ChartBuilder::from_chart(&decode_checked(&chart).unwrap());
    change(&mut chart.edges);
    admit(&chart.bytes_unsorted())
}

/// The number for chart S single with one edge added.
fn single_with(from: usize, to: usize) -> i64 {
    admit(&chart_s(Construct::SINGLE, &[(from, to)]))
}

/// The number for chart K with one edge added.
fn k_with(from: usize, to: usize) -> i64 {
    let mut chart = ChartBuilder::from_chart(&decode_checked(&chart_k()).unwrap());
    chart.edge(from, to);
    admit(&chart.bytes())
}

#[test]
fn row_9_node_numbers() {
    for beyond in [5, 192, 255] {
        assert_eq!(k_with(1, beyond), -9);
        assert_eq!(k_with(beyond, 1), -9);
        assert_eq!(k_with(beyond, beyond), -9);
    }
}

#[test]
fn row_9_order() {
    assert_eq!(changed(chart_k(), |edges| edges.swap(0, 1)), -9);
    assert_eq!(changed(chart_k(), |edges| edges.swap(3, 4)), -9, "by to");
    assert_eq!(
        changed(chart_k(), |edges| edges.push(edges[4])),
        -9,
        "one twice"
    );
    assert_eq!(changed(chart_k(), |edges| edges.insert(0, edges[0])), -9);
}

#[test]
fn row_9_start_and_finish() {
    for node in 0..5 {
        assert_eq!(k_with(node, 0), -9, "into Start");
        assert_eq!(k_with(4, node), -9, "out of Finish");
    }
    assert!(k_with(0, 4) > 0, "Start to Finish");
}

#[test]
fn row_9_scopes() {
    let outcomes = [
        (0, 2, false, "into the single from outside"),
        (2, 4, false, "out of the single from inside"),
        (2, 1, false, "from inside to the begin"),
        (1, 1, false, "begin to itself"),
        (3, 3, false, "end to itself"),
        (1, 4, false, "begin to Finish"),
        (0, 3, false, "Start to the end"),
        (3, 2, false, "from the end to inside"),
        (1, 3, true, "begin to end"),
        (3, 1, true, "end to begin"),
        (2, 2, true, "a plain node to itself"),
        (0, 4, true, "past the single"),
    ];
    for (from, to, admitted, what) in outcomes {
        let expected = if admitted { 66_053 } else { -9 };
        assert_eq!(single_with(from, to), expected, "{what}");
    }
}

#[test]
fn row_9_inner_barrier_to_itself_is_admitted() {
    assert!(k_with(2, 2) > 0);
    assert!(k_with(1, 1) > 0);
}

#[test]
fn row_9_between_sibling_constructs() {
    let mut chart = ChartBuilder::new();
    let siblings = [0, 1].map(|_| chart.construct(Construct::SINGLE, Construct::NONE, 0));
    chart.barrier();
    for construct in siblings {
        chart.begin(construct);
        chart.plain(construct);
        chart.end(construct);
    }
    chart.barrier();
    chart.row();
    let with = |from: usize, to: usize| {
        let mut longer = chart.clone();
        longer.edge(from, to);
        admit(&longer.bytes())
    };
    assert!(with(6, 1) > 0, "end of one to begin of the other");
    assert_eq!(with(2, 5), -9);
    assert_eq!(with(2, 6), -9, "from inside one to the end of the other");
    assert_eq!(with(1, 5), -9);
}

/// The number for a chart without the edges between some nodes.
fn without(chart: Vec<u8>, removed: fn(&Edge) -> bool) -> i64 {
    let mut chart = ChartBuilder::from_chart(&decode_checked(&chart).unwrap());
    chart.edges.retain(|edge| !removed(edge));
    admit(&chart.bytes())
}

#[test]
fn row_10_not_reached() {
    let single = chart_s(Construct::SINGLE, &[]);
    assert_eq!(without(single, |edge| edge.from == 1), -10);
    assert_eq!(without(chart_k(), |edge| edge.from == 0), -10);
    assert_eq!(changed(chart_k(), |edges| edges[0].to = 4), -10);
}

#[test]
fn row_10_not_reaching() {
    assert_eq!(without(chart_k(), |edge| edge.to == 4), -10);
    assert_eq!(without(chart_k(), |edge| edge.from == 2), -10);
}

#[test]
fn row_10_jumps_of_a_team_are_no_edges() {
    let mut chart = ChartBuilder::from_chart(&decode_checked(&chart_d(&[])).unwrap());
    chart.edges.retain(|edge| edge.from != 3);
    chart.edge(3, 3);
    assert_eq!(admit(&chart.bytes()), -10, "inside the do no path leads on");
    chart.edge(3, 4);
    assert!(admit(&chart.bytes()) > 0);
}

#[test]
fn row_10_goes_through_barriers() {
    assert!(admit(&row(192, 64)) > 0);
    assert_eq!(admit(&row(2, 2)), 514);
}

#[test]
fn the_first_row_wins() {
    let mut chart = ChartBuilder::from_chart(&decode_checked(&chart_s(1, &[])).unwrap());
    chart.edges[0] = Edge { from: 9, to: 9 };
    assert_eq!(admit(&chart.bytes_unsorted()), -9);
    chart.nodes[4].kind = Node::PLAIN;
    assert_eq!(admit(&chart.bytes_unsorted()), -8);
    chart.nodes[3].kind = Node::PLAIN;
    assert_eq!(admit(&chart.bytes_unsorted()), -7);
    chart.constructs[0].kind = 0;
    assert_eq!(admit(&chart.bytes_unsorted()), -6);
    chart.nodes[4].kind = 4;
    assert_eq!(
        admit(&chart.bytes_unsorted()),
        -5,
        "a late node before an early edge"
    );
    let mut bytes = chart.bytes_unsorted();
    let trailer = bytes.len() - 16;
    bytes[trailer + 8] += 1;
    assert_eq!(admit(&bytes), -4);
    bytes[trailer + 7] = 1;
    assert_eq!(admit(&bytes), -3);
    bytes[trailer] = 3;
    assert_eq!(admit(&bytes), -2);
    assert_eq!(admit(&bytes[trailer + 1..]), -1);
}
