//! Charts to test with: random valid ones, damaged ones and noise, all from a seed, and the fixed
//! charts of the benchmark.

pub mod benchmark;
pub mod damage;
pub mod listings;
pub mod locks;
pub mod more_edges;
pub mod races;
pub mod random;
pub mod regions;
pub mod traces;
pub mod valid;

use random::Random;
use valid::{valid, Shape};

/// Where a drawn chart comes from.
#[derive(Clone, Copy, Debug, PartialEq, Eq)]
pub enum Source {
    Small,
    Large,
    Aimed(u8),
    Scattered,
    Noise,
}

/// A chart drawn from all sources: four in ten valid, the others damaged or noise; one in seven large.
pub fn draw(random: &mut Random) -> (Source, Vec<u8>) {
    let large = random.percent(15);
    let shape = if large {
        Shape::large(random)
    } else {
        Shape::small(random)
    };
    match random.below(100) {
        0..40 => {
            let source = if large { Source::Large } else { Source::Small };
            (source, valid(random, &shape).bytes())
        }
        40..80 => {
            let row = random.between(1, 10) as u8;
            let chart = valid(random, &shape);
            (Source::Aimed(row), damage::aimed_at(random, &chart, row))
        }
        80..95 => {
            let bytes = valid(random, &shape).bytes();
            (Source::Scattered, damage::scattered(random, bytes))
        }
        _ => (Source::Noise, damage::noise(random)),
    }
}

/// A small valid chart, fit for the exploration of team states.
pub fn small(random: &mut Random) -> Vec<u8> {
    let shape = Shape::small(random);
    valid(random, &shape).bytes()
}

/// A valid chart of any size up to the limits.
pub fn large(random: &mut Random) -> Vec<u8> {
    let shape = Shape::large(random);
    valid(random, &shape).bytes()
}
