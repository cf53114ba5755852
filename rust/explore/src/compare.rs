//! The comparison: for every pair of non-barrier nodes of each region of a chart, the exploration finds
//! the pair met by a finished run exactly when the answer is 0: the one for teams of just that size where
//! the team is whole, and the one for teams of any size where the threads are some of a team that is large
//! enough. And it finds the pair met by some run, finished or not, exactly when no rule but "no common end"
//! excludes it.

use crate::fault::Fault;
use crate::regions::Readings;
use crate::search::{meetings, Meetings, Met};
use crate::team::Team;
use reference::answers::Rules;
use reference::chart::Chart;
use reference::regions::OUTERMOST;
use reference::sizes::Teams;

/// How far an exploration goes.
#[derive(Clone, Copy, Debug)]
pub struct Bounds<'a> {
    /// The numbers of the threads: a whole team, with all from 0 on, or those of a larger team that suffice
    /// for every pair (`large_enough`).
    pub threads: &'a [u16],
    /// The first bound on counts; it is raised up to `most_encounters` while a pair that should be
    /// met is not.
    pub first_encounters: u8,
    pub most_encounters: u8,
    pub most_states: usize,
}

/// What was compared.
#[derive(Clone, Copy, Debug, Default)]
pub struct Tally {
    /// Charts as read for a region with every pair decided.
    pub charts: usize,
    /// Of those, the ones read for an inner region.
    pub inner: usize,
    /// Pairs by their answer.
    pub answers: [usize; 8],
    /// Explorations given up for their number of states.
    pub skipped: usize,
}

/// A pair whose answer and exploration disagree, by the numbers of the chart as read for a region.
#[derive(Clone, Copy, Debug)]
pub struct Mismatch {
    pub region: u8,
    pub a: usize,
    pub b: usize,
    /// By the rules of finished runs, or by those of all.
    pub finished: bool,
    pub answer: u8,
    pub encounters: u8,
}

/// The pair rules of finished runs, and those of all runs, for some teams.
struct Asked {
    finished: Rules,
    all: Rules,
    teams: Teams,
}

/// Compares all pairs of all regions of one chart, with or without a planted fault.
pub fn compare(
    chart: &Chart,
    bounds: &Bounds,
    fault: Option<Fault>,
    tally: &mut Tally,
) -> Result<(), Mismatch> {
    let mut regions = chart.regions().into_iter();
    regions.try_for_each(|region| {
        let readings = Readings::of(chart, region, fault);
        compare_region(&readings, bounds, fault, tally)
    })
}

fn compare_region(
    readings: &Readings,
    bounds: &Bounds,
    fault: Option<Fault>,
    tally: &mut Tally,
) -> Result<(), Mismatch> {
    let asked = Asked::of(readings, bounds, fault);
    for encounters in bounds.first_encounters..=bounds.most_encounters {
        let team = Team::of_numbers(&readings.run, bounds.threads, encounters).with_fault(fault);
        let Some(met) = meetings(&team, bounds.most_states) else {
            tally.skipped += 1;
            return Ok(());
        };
        let unlike = |expected: bool| asked.first_unlike(&readings.run, &met, expected);
        let missed = unlike(true);
        let raise = missed.is_some() && encounters < bounds.most_encounters;
        if let Some((a, b, finished)) = unlike(false).or(missed.filter(|_| !raise)) {
            return Err(Mismatch {
                region: readings.region,
                a,
                b,
                finished,
                answer: asked.answer(finished, a, b),
                encounters,
            });
        }
        if !raise {
            tally.add(&readings.run, |a, b| asked.answer(true, a, b));
            tally.inner += usize::from(readings.region != OUTERMOST);
            break;
        }
    }
    Ok(())
}

impl Asked {
    fn of(readings: &Readings, bounds: &Bounds, fault: Option<Fault>) -> Asked {
        let mut finished = Rules::of(readings.ruled.clone());
        let mut teams = Team::of_numbers(&readings.run, bounds.threads, 0).teams();
        if let Some(fault) = fault {
            fault.plant(&mut finished);
            teams = fault.asked(teams);
        }
        let mut all = finished.clone();
        if fault != Some(Fault::EndAlwaysAsked) {
            all.forget_ends();
        }
        Asked {
            finished,
            all,
            teams,
        }
    }

    fn answer(&self, finished: bool, a: usize, b: usize) -> u8 {
        let rules = if finished { &self.finished } else { &self.all };
        rules.answer_for(self.teams, a, b)
    }

    /// The first pair expected and not met, or the first one not expected and met, by finished runs or by all.
    fn first_unlike(
        &self,
        chart: &Chart,
        meetings: &Meetings,
        expected: bool,
    ) -> Option<(usize, usize, bool)> {
        let unlike = |finished: bool, met: &Met| {
            let mut pairs = pairs(chart);
            let (a, b) = pairs.find(|&(a, b)| {
                let is_met = met[a] >> b & 1 == 1;
                let due = self.answer(finished, a, b) == Rules::CONCURRENT;
                due == expected && is_met != due
            })?;
            Some((a, b, finished))
        };
        unlike(true, &meetings.finished).or_else(|| unlike(false, &meetings.all))
    }
}

/// The pairs a ≤ b of non-barrier nodes.
pub(crate) fn pairs(chart: &Chart) -> impl Iterator<Item = (usize, usize)> + '_ {
    let judged = |&x: &usize| !chart.is_barrier(x);
    let nodes = move || (0..chart.nodes.len()).filter(judged);
    nodes().flat_map(move |a| nodes().filter(move |&b| a <= b).map(move |b| (a, b)))
}

impl Tally {
    fn add(&mut self, chart: &Chart, answer: impl Fn(usize, usize) -> u8) {
        self.charts += 1;
        for (a, b) in pairs(chart) {
            self.answers[usize::from(answer(a, b))] += 1;
        }
    }
}
