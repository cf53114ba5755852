//! Runs to replay: on charts of all sizes, in any region, by teams of any size, as far as they go; or with an entry
//! changed.

use crate::regions::any_region;
use charts::random::Random;
use charts::traces::{changed, legal};
use reference::regions::read;
use reference::replay::MOST_THREADS;

/// A trace, and what it is to be replayed over.
#[derive(Debug)]
pub struct Recorded {
    pub chart: Vec<u8>,
    pub region: usize,
    pub team: usize,
    pub trace: Vec<u8>,
}

impl Recorded {
    /// Some charts are large, some are refused, and now and then the team is; so many in a hundred traces are changed.
    pub fn draw(random: &mut Random, turn: usize, damage: usize) -> Recorded {
        let chart = match turn % 8 {
            0 => charts::draw(random).1,
            1 => charts::large(random),
            _ => charts::small(random),
        };
        let region = any_region(random, &chart);
        let team = random.between(1, MOST_THREADS);
        let most = random.pick(&[10, 40, 200]);
        let mut trace = match read(&chart, region as u64) {
            Ok(region) => legal(random, &region, team, most),
            Err(_) => vec![0, 1],
        };
        if random.percent(damage) {
            let nodes = chart.len() / 6;
            trace = changed(random, &trace, team, nodes);
        }
        let team = match random.percent(3) {
            true => random.below(11),
            false => team,
        };
        Recorded {
            chart,
            region,
            team,
            trace,
        }
    }
}
