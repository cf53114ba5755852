//! An edge tried first, then put in (02, Note 6), and taken out (02, Note 7), and the program that asks. The
//! changed chart is put together from all its records anew: edges sorted, trailer counted.

use crate::builder::ChartBuilder;
use crate::chart::{Chart, Edge, Node};
use crate::refusals::decode_checked;

/// "The present chart's length, and the new record's place among the edges, from 0."
#[derive(Clone, Copy, Debug, PartialEq, Eq)]
pub struct Receipt {
    pub length: usize,
    pub place: usize,
}

/// The two numbers of an edge that is asked about: any, also such as stand in no record.
#[derive(Clone, Copy, Debug, PartialEq, Eq)]
pub struct Numbers {
    pub from: usize,
    pub to: usize,
}

impl Numbers {
    /// The record with these numbers, if there can be one.
    fn record(self) -> Option<Edge> {
        Some(Edge {
            from: self.from.try_into().ok()?,
            to: self.to.try_into().ok()?,
        })
    }
}

impl From<Edge> for Numbers {
    fn from(edge: Edge) -> Numbers {
        Numbers {
            from: edge.from.into(),
            to: edge.to.into(),
        }
    }
}

/// Asking: "whether the chart with that edge would be admitted, by 01's numbers".
pub fn ask(buffer: &[u8], length: usize, edge: impl Into<Numbers>) -> Result<Receipt, u8> {
    tried(buffer, length, edge.into()).map(|(receipt, _)| receipt)
}

/// Committing: "asks again, inserts the record, rewrites the trailer and returns the longer length".
pub fn insert(buffer: &mut [u8], length: usize, receipt: Receipt, edge: impl Into<Numbers>) -> i64 {
    number(try_insert(buffer, length, receipt, edge.into()))
}

/// "17 at commit, when length or place no longer agrees; 18 at commit, when the buffer lacks two bytes past
/// the chart, last."
fn try_insert(
    buffer: &mut [u8],
    length: usize,
    receipt: Receipt,
    numbers: Numbers,
) -> Result<usize, u8> {
    let (agreed, longer) = tried(buffer, length, numbers)?;
    if receipt != agreed {
        return Err(17);
    }
    let room = buffer.get_mut(..longer.len()).ok_or(18u8)?;
    room.copy_from_slice(&longer);
    Ok(longer.len())
}

/// The receipt and the longer chart; or "1 to 10 on the present chart, then on the longer one", of which a
/// number that fits no record leaves 3 for a full table, then 9.
fn tried(buffer: &[u8], length: usize, numbers: Numbers) -> Result<(Receipt, Vec<u8>), u8> {
    let bytes = present(buffer, length)?;
    let chart = decode_checked(bytes)?;
    let Some(edge) = numbers.record() else {
        let room = Chart::EDGE_LIMITS.contains(&(chart.edges.len() + 1));
        return Err(if room { 9 } else { 3 });
    };
    let mut edges = chart.edges.clone();
    edges.push(edge);
    edges.sort_unstable();
    let place = edges.partition_point(|&other| other < edge);
    let longer = with_edges(bytes, &chart, edges);
    decode_checked(&longer)?;
    Ok((Receipt { length, place }, longer))
}

/// Removal: "closes the gap, rewrites the trailer, sets the two freed bytes to 0 and returns the shorter
/// length".
pub fn remove(buffer: &mut [u8], length: usize, edge: impl Into<Numbers>) -> i64 {
    number(try_remove(buffer, length, edge.into()))
}

/// "19 no such edge, after 1 to 10 on the present chart and before 1 to 10 on the shorter one."
fn try_remove(buffer: &mut [u8], length: usize, numbers: Numbers) -> Result<usize, u8> {
    let bytes = present(buffer, length)?;
    let chart = decode_checked(bytes)?;
    let mut others = chart.edges.clone();
    others.retain(|&x| Numbers::from(x) != numbers);
    if others.len() == chart.edges.len() {
        return Err(19);
    }
    let shorter = with_edges(bytes, &chart, others);
    decode_checked(&shorter)?;
    let (kept, freed) = buffer[..length].split_at_mut(shorter.len());
    kept.copy_from_slice(&shorter);
    freed.fill(0);
    Ok(shorter.len())
}

/// "4 first of all for a length beyond the buffer."
fn present(buffer: &[u8], length: usize) -> Result<&[u8], u8> {
    buffer.get(..length).ok_or(4)
}

/// An admitted chart with other edges. Tags stand in the node records alone, which stay.
fn with_edges(bytes: &[u8], chart: &Chart, edges: Vec<Edge>) -> Vec<u8> {
    let mut changed = ChartBuilder::from_chart(chart);
    changed.edges = edges;
    let mut changed = changed.bytes_unsorted();
    let nodes = Node::BYTES * chart.nodes.len();
    changed[..nodes].copy_from_slice(&bytes[..nodes]);
    changed
}

fn number(result: Result<usize, u8>) -> i64 {
    match result {
        Ok(length) => length as i64,
        Err(refusal) => -i64::from(refusal),
    }
}

/// The longest buffer of which the program's two bytes of length can name all.
pub const MOST_BUFFER: usize = 65_535;

/// What the program prints for an edge in two bytes, the chart's length in two, and the buffer to the end.
pub fn text(input: &[u8]) -> String {
    let Some((&[from, to, low, high], buffer)) = input.split_first_chunk() else {
        return "input too short\n".into();
    };
    if buffer.len() > MOST_BUFFER {
        return "input too long\n".into();
    }
    let length = u16::from_le_bytes([low, high]);
    match ask(buffer, length.into(), Edge { from, to }) {
        Ok(Receipt { length, place }) => format!("length {length} place {place}\n"),
        Err(refusal) => format!("refused {refusal}\n"),
    }
}

/// The program's input.
pub fn input(edge: Edge, length: u16, buffer: &[u8]) -> Vec<u8> {
    let [low, high] = length.to_le_bytes();
    [&[edge.from, edge.to, low, high], buffer].concat()
}
