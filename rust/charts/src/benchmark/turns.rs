//! The charts to be asked in turn, as a build asks them: each call sees another one.

use super::code::{self, Style};
use crate::damage::aimed_at;
use crate::random::Random;
use crate::valid::{valid, Shape, EDITION_1, PLAIN_KINDS};
use reference::builder::ChartBuilder;
use reference::refusals::decode_checked;

/// 64 charts: 12 dense and 12 sparse ones at random, 16 of structured code, and 4 refused by each of
/// rows 5 to 10; in an order without order.
pub fn in_turn() -> Vec<Vec<u8>> {
    let mut random = Random::new(64);
    let mut charts = Vec::new();
    for _ in 0..12 {
        charts.push(dense(&mut random).bytes());
        charts.push(sparse(&mut random).bytes());
    }
    for _ in 0..16 {
        charts.push(structured(&mut random).bytes());
    }
    for row in 5..=10 {
        for _ in 0..4 {
            charts.push(refused(&mut random, row));
        }
    }
    random.shuffle(&mut charts);
    charts
}

fn dense(random: &mut Random) -> ChartBuilder {
    let shape = Shape {
        constructs: random.pick(&[0, 0, 1, 2]),
        plain: random.between(80, 150),
        barriers: random.between(0, 30),
        inner_barriers: 0,
        further_edges: 1_000,
        window: 192,
        returning: 20,
        kinds: PLAIN_KINDS,
        filters: EDITION_1,
    };
    valid(random, &shape)
}

fn sparse(random: &mut Random) -> ChartBuilder {
    let constructs = random.between(0, 24);
    let shape = Shape {
        constructs,
        plain: random.between(20, 130 - 2 * constructs),
        barriers: random.between(0, 60),
        inner_barriers: 0,
        further_edges: random.between(0, 60),
        window: random.pick(&[1, 3, 20]),
        returning: 20,
        kinds: PLAIN_KINDS,
        filters: EDITION_1,
    };
    valid(random, &shape)
}

fn structured(random: &mut Random) -> ChartBuilder {
    let nodes = random.between(24, 160);
    code::chart(random, nodes, &Style::FIRST)
}

/// A chart of any of these kinds, damaged until the row refuses it.
fn refused(random: &mut Random, row: u8) -> Vec<u8> {
    loop {
        let chart = match random.below(3) {
            0 => dense(random),
            1 => sparse(random),
            _ => structured(random),
        };
        let bytes = aimed_at(random, &chart, row);
        if decode_checked(&bytes) == Err(row) {
            return bytes;
        }
    }
}
