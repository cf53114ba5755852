//! Charts with many criticals, and lists of accesses to their nodes (02, Note 9).

use crate::random::Random;
use crate::valid::{Shape, EDITION_1, NEAR_FILTERS};

/// Mostly criticals, with what may stand above, below and beside them.
pub const LOCKED_KINDS: &[u8] = &[3, 3, 3, 3, 3, 3, 3, 3, 3, 1, 2, 5, 7, 8, 8];

/// The bytes of an access.
const ACCESS_BYTES: usize = 4;

impl Shape {
    /// A chart for the exploration of team states, mostly with criticals.
    pub fn locked(random: &mut Random) -> Shape {
        let constructs = random.between(2, 4);
        let inner = random.between(2 * constructs + 2, 11);
        let barriers = random.below(2);
        Shape {
            constructs,
            plain: inner - 2 * constructs - barriers,
            barriers,
            inner_barriers: 0,
            further_edges: random.between(0, 3),
            window: 10,
            returning: 20,
            kinds: LOCKED_KINDS,
            filters: random.pick(&[EDITION_1, NEAR_FILTERS]),
        }
    }
}

/// So many accesses to some nodes, of so many variables, half of them writes.
pub fn accesses(random: &mut Random, nodes: &[u8], count: usize, variables: usize) -> Vec<u8> {
    let access = |random: &mut Random| {
        let variable = random.below(variables) as u16;
        // numbers that differ in the high byte alone, too
        let [low, high] = (variable % 3 + variable / 3 * 256).to_le_bytes();
        [random.pick(nodes), random.below(2) as u8, low, high]
    };
    (0..count).flat_map(|_| access(random)).collect()
}

/// A list changed so that it is likely to be refused: a node that none names, a write byte over 1, or a part
/// of a record at its end.
pub fn wrong_accesses(random: &mut Random, mut list: Vec<u8>) -> Vec<u8> {
    let record = ACCESS_BYTES * random.below(list.len() / ACCESS_BYTES);
    match random.below(4) {
        0 => list[record] = random.pick(&[0, 191, 192, 254, 255]),
        1 => list[record + 1] = random.between(2, 255) as u8,
        2 => list.truncate(list.len() - random.between(1, 3)),
        _ => list.push(random.byte()),
    }
    list
}
