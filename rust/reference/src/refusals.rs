//! Refusals 1 to 10, one function a row. Each row looks at the whole chart before the next row
//! does; within a row the order of the conditions cannot be seen, but it keeps look-ups in bounds.

use crate::chart::{Chart, Construct, Edge, Node, Trailer};
use crate::masked;

/// One row of the table: whether it applies to a decoded chart.
type Row = fn(&Chart) -> bool;

/// The chart, or the number of the first row that applies.
pub fn decode_checked(bytes: &[u8]) -> Result<Chart, u8> {
    let trailer = Trailer::read(bytes).ok_or(1u8)?;
    if wrong_edition(&trailer) {
        return Err(2);
    }
    if outside_limits(&trailer) {
        return Err(3);
    }
    if wrong_distances(bytes.len(), &trailer) {
        return Err(4);
    }
    let chart = Chart::decode(bytes, &trailer);
    let rows: [(u8, Row); 6] = [
        (5, wrong_node),
        (6, wrong_construct),
        (7, wrong_begin_or_end),
        (8, wrong_barriers),
        (9, wrong_edge),
        (10, unreachable),
    ];
    match rows.into_iter().find(|(_, applies)| applies(&chart)) {
        Some((number, _)) => Err(number),
        None => Ok(chart),
    }
}

/// Row 2: "edition or closing bytes differ"; 02: there are editions 1 and 2.
fn wrong_edition(trailer: &Trailer) -> bool {
    ![Trailer::EDITION, masked::EDITION].contains(&trailer.edition)
        || trailer.closing != Trailer::CLOSING
}

/// Row 3: "n, e or c outside its limits".
fn outside_limits(trailer: &Trailer) -> bool {
    !Chart::NODE_LIMITS.contains(&trailer.nodes)
        || !Chart::EDGE_LIMITS.contains(&trailer.edges)
        || !Chart::CONSTRUCT_LIMITS.contains(&trailer.constructs)
}

/// Row 4: "length or a distance differs".
fn wrong_distances(length: usize, trailer: &Trailer) -> bool {
    let expected = [
        trailer.length(),
        trailer.edge_distance(),
        trailer.construct_distance(),
    ];
    length != trailer.length() || trailer.distances != expected
}

/// Row 5: "kind over 3; construct number neither below c nor 255; barrier not 255" (02: or naming a
/// parallel, but not at node 0 or n-1); "begin or end with 255".
fn wrong_node(chart: &Chart) -> bool {
    chart.nodes.iter().enumerate().any(|(number, node)| {
        let none = node.construct == Construct::NONE;
        match node.kind {
            Node::PLAIN => !none && usize::from(node.construct) >= chart.constructs.len(),
            Node::BARRIER => chart.is_wrong_barrier(number),
            Node::BEGIN | Node::END => usize::from(node.construct) >= chart.constructs.len(),
            _ => true,
        }
    })
}

/// Row 6: "kind not 1 to 5" (02: or 6 to 8); "parent not lower and not 255; name not 0 on a
/// non-critical; nesting broken"; 02: "a node or construct wrongly in a sections", "a filter on
/// another kind" than masked. Nesting comes after the fields: its walk outward ends only if every
/// parent is lower.
fn wrong_construct(chart: &Chart) -> bool {
    let wrong_fields = chart.constructs.iter().enumerate().any(|(number, own)| {
        !(Construct::SINGLE..=Construct::PARALLEL).contains(&own.kind)
            || (own.parent != Construct::NONE && usize::from(own.parent) >= number)
            || (own.kind != Construct::CRITICAL && own.name != 0)
            || own.is_wrongly_filtered()
    });
    wrong_fields
        || (0..chart.constructs.len())
            .any(|number| chart.breaks_nesting(number) || chart.is_misplaced(number))
        || (0..chart.nodes.len()).any(|node| chart.is_stray(node))
}

/// Row 7: "not exactly one begin and one end each".
fn wrong_begin_or_end(chart: &Chart) -> bool {
    let count = |kind: u8, number: usize| {
        let matches = |node: &&Node| node.kind == kind && usize::from(node.construct) == number;
        chart.nodes.iter().filter(matches).count()
    };
    (0..chart.constructs.len())
        .any(|number| count(Node::BEGIN, number) != 1 || count(Node::END, number) != 1)
}

/// Row 8: "node 0 or n-1 no barrier; over 64 barriers", which are counted "per region".
fn wrong_barriers(chart: &Chart) -> bool {
    let too_many = |&region: &u8| chart.barriers_of(region) > Chart::MOST_BARRIERS;
    !chart.is_barrier(chart.start)
        || !chart.is_barrier(chart.finish)
        || chart.regions().iter().any(too_many)
}

/// Row 9: "node number n or more; not strictly rising by (from, to); into Start; out of Finish;
/// sides unequal"; 02: "no edge leads from a section's end to a section's begin". What looks at the
/// two nodes comes last: it needs node numbers below n.
fn wrong_edge(chart: &Chart) -> bool {
    let beyond = |node: u8| usize::from(node) >= chart.nodes.len();
    let not_rising = |pair: &[Edge]| pair[0] >= pair[1];
    chart.edges.iter().any(|x| beyond(x.from) || beyond(x.to))
        || chart.edges.windows(2).any(not_rising)
        || chart.edges.iter().any(|edge| {
            let (from, to) = (usize::from(edge.from), usize::from(edge.to));
            to == chart.start
                || from == chart.finish
                || chart.leaving_scope(from) != chart.arriving_scope(to)
                || chart.joins_sections(from, to)
        })
}

/// Row 10: "a node other than Start not reached from Start, or one other than Finish not reaching
/// Finish, along edges". Barriers do not stop these paths.
fn unreachable(chart: &Chart) -> bool {
    let successors = chart.successors();
    let mut predecessors = vec![Vec::new(); chart.nodes.len()];
    for (from, targets) in successors.iter().enumerate() {
        targets.iter().for_each(|&to| predecessors[to].push(from));
    }
    let reached = connected(chart.start, &successors);
    let reaching = connected(chart.finish, &predecessors);
    !reached.into_iter().chain(reaching).all(|found| found)
}

/// The nodes joined to `origin` by a list of neighbour steps, `origin` itself included.
fn connected(origin: usize, neighbours: &[Vec<usize>]) -> Vec<bool> {
    let mut found = vec![false; neighbours.len()];
    found[origin] = true;
    let mut pending = vec![origin];
    while let Some(node) = pending.pop() {
        for &next in &neighbours[node] {
            if !found[next] {
                found[next] = true;
                pending.push(next);
            }
        }
    }
    found
}
