//! Locks that can be dropped: a byte for each construct of a chart, which says of a critical of the region whether two
//! threads can be together, one inside it and the other inside a critical of its name, in runs without locks.

use crate::answers::Rules;
use crate::calls::{number, result_part};
use crate::chart::Construct;
use crate::regions::{read, Region};
use crate::sizes::Teams;

/// Some finished run has two threads so.
pub const NEEDED: u8 = 0;
/// No finished run has, but some run that does not finish.
pub const DROPPABLE_FINISHED: u8 = 1;
/// No run has.
pub const DROPPABLE_ALWAYS: u8 = 2;
/// The construct is no critical of the region.
pub const NO_CRITICAL: u8 = 255;

/// The pair rules of finished runs, and those of all runs.
#[derive(Clone, Debug)]
pub struct Locks {
    finished: Rules,
    all: Rules,
}

impl Locks {
    pub fn of(finished: Rules) -> Locks {
        let mut all = finished.clone();
        all.forget_ends();
        Locks { finished, all }
    }

    /// The byte of a construct of the chart as read for a region.
    pub fn byte(&self, teams: Teams, construct: usize) -> u8 {
        if self.all.chart.constructs[construct].kind != Construct::CRITICAL {
            NO_CRITICAL
        } else if self.finished.need_lock(teams, construct) {
            NEEDED
        } else if self.all.need_lock(teams, construct) {
            DROPPABLE_FINISHED
        } else {
            DROPPABLE_ALWAYS
        }
    }
}

impl Rules {
    /// Where runs need not finish, threads need not come to a common end: as if all nodes had one.
    pub fn forget_ends(&mut self) {
        self.phases.ends.fill(u64::MAX);
    }

    /// Whether some pair of a node inside a critical and a node inside a critical of its name, at any depth and this
    /// one included, has the answer 0.
    fn need_lock(&self, teams: Teams, critical: usize) -> bool {
        let own = self.chart.constructs[critical].name;
        let nodes = || 0..self.chart.nodes.len();
        let is_inside = |&x: &usize| self.around(x, Construct::CRITICAL).any(|c| c == critical);
        let named = nodes().filter(|&y| self.names(y).any(|name| name == own));
        let named: Vec<usize> = named.collect();
        let meets = |x: usize, y: usize| self.answer_for(teams, x, y) == Rules::CONCURRENT;
        let mut inside = nodes().filter(is_inside);
        inside.any(|x| named.iter().any(|&y| meets(x, y)))
    }
}

/// The call: a byte for each construct, by rising number. Rows 1 to 10, 23, 11 and, with a size, 21.
pub fn write(chart: &[u8], region: u64, teams: Teams, out: &mut [u8]) -> i64 {
    number(read(chart, region).and_then(|region| try_write(&region, teams, out)))
}

fn try_write(region: &Region, teams: Teams, out: &mut [u8]) -> Result<i64, u8> {
    let result = result_part(out, region.constructs.len())?;
    let teams = teams.checked()?;
    let locks = Locks::of(Rules::of(region.chart.clone()));
    for (byte, own) in result.iter_mut().zip(&region.constructs) {
        *byte = own.map_or(NO_CRITICAL, |construct| locks.byte(teams, construct));
    }
    Ok(result.len() as i64)
}
