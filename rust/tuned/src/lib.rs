//! The calls written for speed: the best Rust known for them, which the benchmark measures against. No
//! heap, no unsafe code, no features of a processor beyond the target's own.
//!
//! They are those for the outermost region, which is what the benchmark asks: charts with regions inside
//! are read and refused like any other, but no inner region can be named.
//!
//! With `LEVELS` a call also works out the fewest edges on a barrier-free path from any start to every
//! node, whether it tells them or not, as the library's marking does.
//!
//! A set of barriers or constructs is one word, often of both together, a set of nodes three. The node table is taken
//! apart into bytes and sets, the edges are sorted once onto lists, marking sweeps these, levels among the masks, the
//! sheet works on sets of nodes. Tables that a node number indexes have 256 entries, those that a construct number indexes 64,
//! so that no access needs a bounds check. All that a call does is inlined into it.

#![forbid(unsafe_code)]

mod answers;
mod bits;
mod by_node;
mod constructs;
mod criticals;
mod edges;
pub mod first_edges;
mod levels;
mod locks;
mod loops;
mod marks;
mod nodes;
mod races;
pub mod replay;
mod sheet;
mod sweeps;
mod tables;

use answers::Marked;
use constructs::Constructs;
use edges::Edges;
use marks::{Marks, Read};
use nodes::Nodes;
use tables::Tables;

/// Admit: nodes + 256 × barriers + 65,536 × phases.
#[inline(never)]
pub fn admit<const LEVELS: bool>(chart: &[u8]) -> i64 {
    with_marks::<false, LEVELS>(chart, |marked| Ok(marked.counts()))
}

/// Phases: starts and ends of each node, 8 bytes each.
#[inline(never)]
pub fn phases<const LEVELS: bool>(chart: &[u8], out: &mut [u8]) -> i64 {
    with_marks::<false, LEVELS>(chart, |marked| marked.write_phases(out))
}

/// Pair: the answer for two nodes.
#[inline(never)]
pub fn pair<const LEVELS: bool>(chart: &[u8], a: usize, b: usize) -> i64 {
    with_marks::<true, LEVELS>(chart, |marked| marked.pair(a, b))
}

/// Sheet: n rows of n answers.
#[inline(never)]
pub fn sheet<const LEVELS: bool>(chart: &[u8], out: &mut [u8]) -> i64 {
    with_marks::<true, LEVELS>(chart, |marked| marked.write_sheet(out))
}

/// Judge: 0, or the index plus 1 of the first pair answered 0.
#[inline(never)]
pub fn judge<const LEVELS: bool>(chart: &[u8], claims: &[u8]) -> i64 {
    with_marks::<true, LEVELS>(chart, |marked| marked.judge(claims))
}

/// The fewest edges on a barrier-free path from any start, a byte for each node; 255 for barriers.
#[inline(never)]
pub fn distances(chart: &[u8], out: &mut [u8]) -> i64 {
    with_marks::<false, true>(chart, |marked| marked.write_levels(out))
}

/// Races: a byte for each pair of accesses.
#[inline(never)]
pub fn races<const LEVELS: bool>(chart: &[u8], accesses: &[u8], out: &mut [u8]) -> i64 {
    with_marks::<true, LEVELS>(chart, |marked| marked.write_races(accesses, out))
}

/// Locks: a byte for each construct.
#[inline(never)]
pub fn locks<const LEVELS: bool>(chart: &[u8], out: &mut [u8]) -> i64 {
    with_marks::<true, LEVELS>(chart, |marked| marked.write_locks(out))
}

/// Rows 1 to 10, then what is to be done with the marks; C's number.
#[inline(always)]
fn with_marks<const RULES: bool, const LEVELS: bool>(
    chart: &[u8],
    then: impl FnOnce(Marked) -> Result<i64, u8>,
) -> i64 {
    let result = admitted::<RULES, LEVELS, _>(chart, then);
    result.unwrap_or_else(|refusal| -i64::from(refusal))
}

/// The same; what comes of it, or the refusal.
#[inline(always)]
fn admitted<const RULES: bool, const LEVELS: bool, T>(
    chart: &[u8],
    then: impl FnOnce(Marked) -> Result<T, u8>,
) -> Result<T, u8> {
    let tables = Tables::of(chart)?;
    let mut constructs = Constructs::new();
    let row_6 = !constructs.read(&tables.constructs);
    let mut nodes = Nodes::new();
    nodes.read(&tables, &constructs, row_6)?;
    let mut edges = Edges::new();
    if !edges.read(&tables, &nodes, &constructs) {
        return Err(9);
    }
    // Tables are lent from here on: to move them costs as much as to fill them.
    let read = Read {
        tables,
        nodes: &nodes,
        constructs: &constructs,
        edges: &edges,
    };
    let mut marks = Marks::new();
    let asked = if RULES { read.may_return() } else { 0 };
    let sound = if RULES && asked.count_ones() as usize + nodes.barriers > 64 {
        marks.find_apart::<LEVELS>(&read, asked)
    } else {
        marks.find::<false, LEVELS>(&read, asked)
    };
    if !sound {
        return Err(10);
    }
    then(Marked {
        read: &read,
        marks: &marks,
    })
}
