//! How far behind the nearest barrier each node lies: the fewest edges on a barrier-free path from any
//! start to it, 255 for barriers. By a plain breadth-first search, one level after the other.

use crate::calls::result_part;
use crate::chart::Chart;
use crate::regions::read;

/// What stands for a barrier, and for a node outside the region.
pub const AT_BARRIER: u8 = 255;

/// The distance of each node of a chart as read for a region. A search from all barriers at once finds a node
/// first by a path with the fewest edges; it does not go on from a barrier that it meets.
pub fn distances(chart: &Chart) -> Vec<u8> {
    let successors = chart.successors();
    let mut distances = vec![AT_BARRIER; chart.nodes.len()];
    let mut level = chart.barriers();
    for distance in 1.. {
        let mut next = Vec::new();
        for &to in level.iter().flat_map(|&from| &successors[from]) {
            if !chart.is_barrier(to) && distances[to] == AT_BARRIER {
                distances[to] = distance;
                next.push(to);
            }
        }
        if next.is_empty() {
            break;
        }
        level = next;
    }
    distances
}

/// The call: a byte for each node. Refusals and what is returned are as for Phases.
pub fn write(chart: &[u8], region: u64, out: &mut [u8]) -> i64 {
    let written = read(chart, region).and_then(|region| {
        let nodes = region.place.len();
        let result = result_part(out, nodes)?;
        let known = distances(&region.chart);
        for (distance, place) in result.iter_mut().zip(&region.place) {
            *distance = place.map_or(AT_BARRIER, |x| known[x]);
        }
        Ok(nodes as i64)
    });
    written.unwrap_or_else(|refusal| -i64::from(refusal))
}
