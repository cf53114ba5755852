//! The time of one entry of a replay (02, Note 11). C has no such call: the library's program is timed, and beside
//! it one of the tuned version that reads and prints the same.

mod processor;
mod program;

pub use program::{serve, tuned_text, ARGUMENT};

use crate::timing::ROUNDS;
use charts::benchmark::rings;
use charts::random::Random;
use charts::traces::round;
use program::{Program, Stored};
use reference::regions::{read, OUTERMOST};
use reference::replay::{input, text, MOST_TRACE};

/// The teams that are measured.
pub const TEAMS: [usize; 3] = [1, 2, 8];
/// The longest trace that the program takes.
const ENTRIES: usize = MOST_TRACE / 2;
/// It is one round, and the same again, so many times or more.
const REPEATS: usize = 4;
/// Of no thread, and so forbidden.
const WRONG: [u8; 2] = [255, 0];

const TURNS: usize = 10;
/// Runs of a program with each input in a turn: the first comes after another program, and is slower for it.
const RUNS: usize = 8;
/// So many of the least times are taken together, since the least alone may be luckier for one input.
const LEAST: usize = 4;

/// Two traces of the same length, legal for one round and for all of them. What is printed differs in the index
/// of the first forbidden entry alone: in the later rounds nothing new is met, and each ends as the first does.
pub struct Subject {
    pub inputs: [Vec<u8>; 2],
    /// The entries of the later rounds.
    pub entries: usize,
}

impl Subject {
    pub fn new(chart: &[u8], team: usize) -> Subject {
        let region = read(chart, OUTERMOST.into()).expect("an admitted chart");
        let mut random = Random::new(team as u64);
        let once = round(&mut random, &region, team, ENTRIES / REPEATS);
        let rounds = 2 * ENTRIES / once.len();
        let inputs = [1, rounds].map(|times| {
            let mut trace = once.repeat(times);
            trace.extend(WRONG.repeat(ENTRIES - trace.len() / 2));
            input(OUTERMOST, team as u8, &trace, chart)
        });
        Subject {
            inputs,
            entries: (rounds - 1) * once.len() / 2,
        }
    }
}

/// What is measured of one chart and team: the times of each program with each input.
struct Measured {
    chart: &'static str,
    team: usize,
    entries: usize,
    inputs: [Stored; 2],
    times: [[Vec<f64>; 2]; 2],
}

impl Measured {
    /// Holds what both programs print to the second implementation.
    fn new(chart: &'static str, bytes: &[u8], team: usize, by: &[Program; 2]) -> Measured {
        let Subject { inputs, entries } = Subject::new(bytes, team);
        let stored = [0, 1].map(|index| {
            let name = format!("{chart}, team {team}, {index}");
            let stored = Stored::new(&name, &inputs[index]);
            let expected = text(&inputs[index]);
            for program in by {
                assert_eq!(program.printed(&stored), expected, "{name}");
            }
            stored
        });
        Measured {
            chart,
            team,
            entries,
            inputs: stored,
            times: Default::default(),
        }
    }

    fn measure(&mut self, by: &[Program; 2]) {
        for _ in 0..TURNS {
            for (program, times) in by.iter().zip(&mut self.times) {
                for _ in 0..RUNS {
                    for (input, times) in self.inputs.iter().zip(&mut *times) {
                        times.push(program.time(input));
                    }
                }
            }
        }
    }

    /// Nanoseconds of an entry by each program.
    fn of_entry(&mut self) -> [f64; 2] {
        let least = |times: &mut Vec<f64>| {
            times.sort_by(f64::total_cmp);
            times[..LEAST].iter().sum::<f64>() / LEAST as f64
        };
        self.times.each_mut().map(|times| {
            let [first, all] = times.each_mut().map(least);
            (all - first) / self.entries as f64
        })
    }
}

/// Measures the replay on the benchmark's rings and prints a table.
pub fn print() {
    let by = [Program::library(), Program::tuned()];
    let mut all = Vec::new();
    for (chart, bytes) in &rings() {
        for team in TEAMS {
            all.push(Measured::new(chart, bytes, team, &by));
        }
    }
    for _ in 0..ROUNDS {
        all.iter_mut().for_each(|measured| measured.measure(&by));
    }
    println!();
    println!(
        "| {:<26} | Team | Library, ns an entry | of Rust |",
        "Chart"
    );
    println!("|---|---|---|---|");
    for measured in &mut all {
        let [library, rust] = measured.of_entry();
        let Measured { chart, team, .. } = measured;
        let ratio = library / rust;
        println!("| {chart:<26} | {team:4} | {library:20.1} | {ratio:7.2} |");
    }
}
