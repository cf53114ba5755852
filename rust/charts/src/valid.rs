//! Random charts that are admitted, by construction: in each scope every item has an edge from an
//! earlier one of one order and to a later one of a second order; any further edge that stays in
//! its scope may be added.

use crate::random::Random;
use crate::regions::{any_region, parallels, NESTED_KINDS};
use reference::builder::ChartBuilder;
use reference::chart::{Construct, Node};
use reference::masked;
use reference::scopes::may_enclose;

/// How large a chart is to be, and how its edges are drawn.
#[derive(Clone, Copy, Debug)]
pub struct Shape {
    pub constructs: usize,
    pub plain: usize,
    /// Barriers of the outermost region other than Start and Finish.
    pub barriers: usize,
    /// Barriers of inner regions; plain nodes where there is no such region.
    pub inner_barriers: usize,
    /// Edges to draw beyond those that connect the chart; some of them may coincide.
    pub further_edges: usize,
    /// How far apart in their order the two nodes of an edge may be.
    pub window: usize,
    /// Percentage of constructs that get an edge from their end to their begin.
    pub returning: usize,
    /// The kinds that constructs are drawn from, likelier ones more often.
    pub kinds: &'static [u8],
    /// The filters that masked constructs are drawn with, likelier ones more often; none make the chart
    /// one of edition 1.
    pub filters: &'static [u16],
}

/// Without sections. The benchmark's charts are drawn from these: with another list they are others.
pub const PLAIN_KINDS: &[u8] = &[1, 1, 1, 2, 2, 3, 3, 5, 5, 5, 5];
/// A do comes where an ordered finds none, a sections where a section does.
pub const ALL_KINDS: &[u8] = &[1, 1, 1, 1, 2, 2, 2, 3, 3, 5, 5, 5, 5, 5, 5, 7, 7];
/// Mostly sections, with what may stand in them and beside them.
const DEALT_KINDS: &[u8] = &[1, 2, 3, 3, 3, 5, 6, 7, 7, 7, 7, 7, 7, 7];
/// Mostly masked constructs, with what may stand above, below and beside them.
const MASKED_KINDS: &[u8] = &[1, 2, 2, 2, 2, 2, 2, 2, 3, 3, 5, 5, 7];

pub const EDITION_1: &[u16] = &[];
/// Threads of small teams.
pub const NEAR_FILTERS: &[u16] = &[0, 1, 1, 2];
/// Some differ in one byte alone.
pub const FAR_FILTERS: &[u16] = &[0, 1, 255, 256, 257, 65_280, 65_535];

impl Shape {
    /// A chart for the exploration of team states: up to 12 nodes and 5 constructs.
    pub fn small(random: &mut Random) -> Shape {
        if random.percent(25) {
            let filters = random.pick(&[NEAR_FILTERS, FAR_FILTERS, FAR_FILTERS]);
            return Shape::masked(random, filters);
        }
        if random.percent(30) {
            return Shape::nested(random);
        }
        let dealt = random.percent(40);
        let least = if dealt { 8 } else { 0 };
        let inner = random.between(least, 10).max(random.between(0, 10));
        let wanted = match dealt {
            true => random.between(3, 5),
            false => random.between(0, 4),
        };
        let constructs = wanted.min(inner / 2);
        let barriers = random.between(0, 2).min(inner - 2 * constructs);
        Shape {
            constructs,
            plain: inner - 2 * constructs - barriers,
            barriers,
            inner_barriers: 0,
            further_edges: random.between(0, 4),
            window: 10,
            returning: 35,
            kinds: if dealt { DEALT_KINDS } else { ALL_KINDS },
            filters: random.pick(&[EDITION_1, EDITION_1, EDITION_1, FAR_FILTERS]),
        }
    }

    /// Such a chart of edition 2, mostly with masked constructs, of some filters.
    pub fn masked(random: &mut Random, filters: &'static [u16]) -> Shape {
        let constructs = random.between(1, 4);
        let inner = random.between(2 * constructs + 2, 10);
        let barriers = random.below(2);
        Shape {
            constructs,
            plain: inner - 2 * constructs - barriers,
            barriers,
            inner_barriers: 0,
            further_edges: random.between(0, 3),
            window: 10,
            returning: 20,
            kinds: MASKED_KINDS,
            filters,
        }
    }

    /// A chart of any size up to the limits, which are often met.
    pub fn large(random: &mut Random) -> Shape {
        let inner = if random.percent(40) {
            190
        } else {
            random.between(0, 190)
        };
        let up_to = |random: &mut Random, most: usize| match random.below(4) {
            0 => most,
            1 => 0,
            _ => random.between(0, most),
        };
        let constructs = up_to(random, 48.min(inner / 2));
        let barriers = up_to(random, 62.min(inner - 2 * constructs));
        let inner_barriers = up_to(random, 62.min(inner - 2 * constructs - barriers));
        Shape {
            constructs,
            plain: inner - 2 * constructs - barriers - inner_barriers,
            barriers,
            inner_barriers,
            further_edges: up_to(random, 900),
            window: random.pick(&[1, 3, 20, 192]),
            returning: random.pick(&[0, 20, 100]),
            kinds: random.pick(&[ALL_KINDS, NESTED_KINDS, DEALT_KINDS, MASKED_KINDS]),
            filters: random.pick(&[EDITION_1, EDITION_1, NEAR_FILTERS, FAR_FILTERS]),
        }
    }
}

/// What one scope holds: entry and exit node of each item, and those of the scope itself.
struct Scope {
    entry: usize,
    exit: usize,
    items: Vec<(usize, usize)>,
    /// Whether it is a sections construct, in which no edge joins two items.
    dealt: bool,
}

const START: usize = 0;
/// The most edges a chart may have.
const MOST_EDGES: usize = 1024;

/// A random chart of a shape.
pub fn valid(random: &mut Random, shape: &Shape) -> ChartBuilder {
    let mut chart = ChartBuilder::new();
    if !shape.filters.is_empty() {
        chart.edition = masked::EDITION;
    }
    for _ in 0..shape.constructs {
        add_construct(random, &mut chart, shape);
    }
    let scopes = add_nodes(random, &mut chart, shape);
    for scope in &scopes {
        connect(random, &mut chart, scope, shape.window);
    }
    for (number, scope) in scopes[..shape.constructs].iter().enumerate() {
        let is_section = chart.constructs[number].kind == Construct::SECTION;
        if !is_section && random.percent(shape.returning) {
            chart.edge(scope.exit, scope.entry);
        }
    }
    chart.edges.sort_unstable();
    chart.edges.dedup();
    let room = MOST_EDGES - chart.edges.len();
    for _ in 0..shape.further_edges.min(room) {
        add_further_edge(random, &mut chart, &scopes, shape.window);
    }
    if random.percent(70) {
        renumber(random, &mut chart);
    }
    chart
}

/// Adds a construct of one of the shape's kinds at a random place where it may stand.
fn add_construct(random: &mut Random, chart: &mut ChartBuilder, shape: &Shape) {
    loop {
        let (kind, parent) = match random.pick(shape.kinds) {
            Construct::ORDERED => below(random, chart, Construct::ORDERED, Construct::DO),
            Construct::SECTION => below(random, chart, Construct::SECTION, Construct::SECTIONS),
            kind @ (Construct::MASTER | Construct::CRITICAL) => (kind, any_scope(random, chart)),
            // half of them directly in another region, so that some stand deep
            Construct::PARALLEL if random.percent(50) => {
                (Construct::PARALLEL, any_scope(random, chart))
            }
            kind => (kind, any_region(random, chart)),
        };
        let name = match kind {
            Construct::CRITICAL => random.pick(&[0, 1, 2, 256, 65_535]),
            _ => 0,
        };
        let filter = match (kind, shape.filters) {
            (Construct::MASTER, [_, ..]) => random.pick(shape.filters),
            _ => 0,
        };
        let own = Construct {
            kind,
            parent,
            name,
            filter,
        };
        if may_add(chart, own) {
            chart.add(own);
            return;
        }
    }
}

/// Kind and parent of a construct whose parent is of a given kind; where no such parent has been
/// added, those of the parent itself.
fn below(random: &mut Random, chart: &ChartBuilder, kind: u8, above: u8) -> (u8, u8) {
    let numbered = chart.constructs.iter().enumerate();
    let parents: Vec<usize> = numbered
        .filter(|(_, x)| x.kind == above)
        .map(|(number, _)| number)
        .collect();
    match parents.is_empty() {
        true => (above, any_region(random, chart)),
        false => (kind, random.pick(&parents) as u8),
    }
}

/// A construct added before, or none; none is somewhat likelier than each construct.
fn any_scope(random: &mut Random, chart: &ChartBuilder) -> u8 {
    match random.below(chart.constructs.len() + 2) {
        number if number < chart.constructs.len() => number as u8,
        _ => Construct::NONE,
    }
}

/// Whether a construct may stand below its parent: by the nesting table, up to the nearest parallel, and
/// in a sections only if it is a section.
fn may_add(chart: &ChartBuilder, own: Construct) -> bool {
    let above = |number: u8| chart.constructs.get(usize::from(number));
    let mut next = above(own.parent);
    if next.is_some_and(|x| x.kind == Construct::SECTIONS) && own.kind != Construct::SECTION {
        return false;
    }
    while let Some(enclosing) = next.filter(|x| x.kind != Construct::PARALLEL) {
        if !may_enclose(enclosing, &own) {
            return false;
        }
        next = above(enclosing.parent);
    }
    true
}

/// Adds all nodes, Start first and Finish last; the scopes are the constructs, then the outermost.
fn add_nodes(random: &mut Random, chart: &mut ChartBuilder, shape: &Shape) -> Vec<Scope> {
    let mut items = vec![Vec::new(); shape.constructs + 1];
    let mut ports = Vec::new();
    chart.barrier();
    for construct in 0..shape.constructs {
        let (begin, end) = (chart.begin(construct as u8), chart.end(construct as u8));
        let parent = usize::from(chart.constructs[construct].parent).min(shape.constructs);
        items[parent].push((begin, end));
        ports.push((begin, end));
    }
    let regions = parallels(chart);
    let (plain, barriers) = match regions.is_empty() {
        true => (shape.plain + shape.inner_barriers, 0),
        false => (shape.plain, shape.inner_barriers),
    };
    add_plain(random, chart, plain, &mut items);
    for _ in 0..shape.barriers {
        let node = chart.barrier();
        items[shape.constructs].push((node, node));
    }
    for _ in 0..barriers {
        let region = random.pick(&regions);
        let node = chart.barrier_of(region);
        items[usize::from(region)].push((node, node));
    }
    ports.push((START, chart.barrier()));
    let numbered = ports.into_iter().zip(items).enumerate();
    numbered
        .map(|(scope, ((entry, exit), items))| Scope {
            entry,
            exit,
            items,
            dealt: is_dealt(chart, scope),
        })
        .collect()
}

/// Adds plain nodes to scopes that may have some, of which the last is the outermost.
fn add_plain(
    random: &mut Random,
    chart: &mut ChartBuilder,
    count: usize,
    items: &mut [Vec<(usize, usize)>],
) {
    let outermost = items.len() - 1;
    let open: Vec<usize> = (0..outermost)
        .filter(|&scope| !is_dealt(chart, scope))
        .collect();
    for _ in 0..count {
        let inner = !open.is_empty() && random.percent(60);
        let (scope, number) = if inner {
            let scope = random.pick(&open);
            (scope, scope as u8)
        } else {
            (outermost, Construct::NONE)
        };
        let node = chart.plain(number);
        items[scope].push((node, node));
    }
}

/// Whether a scope is a sections construct; the outermost one is no construct.
fn is_dealt(chart: &ChartBuilder, scope: usize) -> bool {
    let own = chart.constructs.get(scope);
    own.is_some_and(|x| x.kind == Construct::SECTIONS)
}

/// Edges by which every item of a scope is reached from its entry and reaches its exit.
fn connect(random: &mut Random, chart: &mut ChartBuilder, scope: &Scope, window: usize) {
    if scope.items.is_empty() {
        chart.edge(scope.entry, scope.exit);
    }
    if scope.dealt {
        for &(entry, exit) in &scope.items {
            chart.edge(scope.entry, entry);
            chart.edge(exit, scope.exit);
        }
        return;
    }
    let mut order = scope.items.clone();
    random.shuffle(&mut order);
    for (place, &(entry, _)) in order.iter().enumerate() {
        let back = random.between(1, window);
        let from = place.checked_sub(back).map(|earlier| order[earlier].1);
        chart.edge(from.unwrap_or(scope.entry), entry);
    }
    if random.percent(50) {
        random.shuffle(&mut order);
    }
    for (place, &(_, exit)) in order.iter().enumerate() {
        let to = order.get(place + random.between(1, window)).map(|x| x.0);
        chart.edge(exit, to.unwrap_or(scope.exit));
    }
}

/// One edge between two random places of a random scope.
fn add_further_edge(
    random: &mut Random,
    chart: &mut ChartBuilder,
    scopes: &[Scope],
    window: usize,
) {
    let scope = &scopes[random.below(scopes.len())];
    let items = scope.items.len();
    let from = random.below(items + 1);
    let to = match scope.dealt && from < items {
        true => items,
        false => (from + random.between(0, 2 * window)).saturating_sub(window),
    };
    let exit = scope.items.get(from).map_or(scope.entry, |x| x.1);
    let entry = scope.items.get(to.min(items)).map_or(scope.exit, |x| x.0);
    chart.edge(exit, entry);
}

/// Gives all nodes but Start and Finish new numbers.
fn renumber(random: &mut Random, chart: &mut ChartBuilder) {
    let count = chart.nodes.len();
    let mut numbers: Vec<usize> = (0..count).collect();
    random.shuffle(&mut numbers[1..count - 1]);
    let mut nodes: Vec<Node> = chart.nodes.clone();
    for (old, &new) in numbers.iter().enumerate() {
        nodes[new] = chart.nodes[old];
    }
    chart.nodes = nodes;
    for edge in &mut chart.edges {
        edge.from = numbers[usize::from(edge.from)] as u8;
        edge.to = numbers[usize::from(edge.to)] as u8;
    }
}
