//! Each planted fault of the comparison makes an answer and an exploration disagree within two
//! thousand charts, on a chart where they agree without it. Under the others the same pairs are met,
//! by other steps; `sections`, `masked` and `regions` have runs for each that the rules forbid.

use charts::random::Random;
use explore::compare::{compare, Bounds, Tally};
use explore::fault::Fault;
use explore::masked::large_enough;
use explore::regions::Readings;
use explore::search::steps;
use explore::team::Team;
use reference::refusals::decode_checked;
use std::io::Write;

const FIRST_ENCOUNTERS: u8 = 2;
const MOST_STATES: usize = 50_000;

/// Whether answers and exploration agree on the chart of a seed, for threads that suffice for it.
fn agree(seed: u64, fault: Option<Fault>) -> bool {
    let bytes = charts::small(&mut Random::new(seed));
    let chart = decode_checked(&bytes).expect("a valid chart");
    let Some(threads) = large_enough(&chart) else {
        return true;
    };
    let bounds = Bounds {
        threads: &threads,
        first_encounters: FIRST_ENCOUNTERS,
        most_encounters: 4,
        most_states: MOST_STATES,
    };
    compare(&chart, &bounds, fault, &mut Tally::default()).is_ok()
}

#[test]
fn every_planted_fault_is_noticed() {
    for fault in Fault::COMPARED {
        let noticed = (1..=2_000).find(|&seed| !agree(seed, Some(fault)));
        let seed = noticed.unwrap_or_else(|| panic!("{fault:?} is not noticed"));
        assert!(agree(seed, None), "seed {seed} without a fault");
        let line = format!("{fault:?}: noticed at seed {seed}, counted from 1");
        writeln!(std::io::stderr(), "{line}").expect("standard error is open");
    }
}

/// Whether the teams of a seed's chart take the same steps with a fault as without.
fn same_steps(seed: u64, fault: Fault) -> bool {
    let bytes = charts::small(&mut Random::new(seed));
    let chart = decode_checked(&bytes).expect("a valid chart");
    let taken = |region: u8, fault: Option<Fault>| {
        let read = Readings::of(&chart, region, fault).run;
        let team = Team::new(&read, 2, FIRST_ENCOUNTERS);
        steps(&team.with_fault(fault), MOST_STATES)
    };
    let mut regions = chart.regions().into_iter();
    regions.all(|region| taken(region, Some(fault)) == taken(region, None))
}

#[test]
fn faults_that_change_no_pair_are_noticed_by_the_steps() {
    for fault in Fault::TRACED {
        let unlike: Vec<u64> = (1..=400).filter(|&seed| !same_steps(seed, fault)).collect();
        assert!(!unlike.is_empty(), "{fault:?} is not noticed");
        let agreeing = unlike.iter().all(|&seed| agree(seed, Some(fault)));
        assert!(agreeing, "{fault:?} changes a pair, so compare it");
        let (seed, count) = (unlike[0], unlike.len());
        let line = format!("{fault:?}: other steps at seed {seed}; {count} of 400 charts");
        writeln!(std::io::stderr(), "{line}").expect("standard error is open");
    }
}
