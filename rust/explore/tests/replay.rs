//! The second implementation's replay against the exploration: finished runs out of it are replayed to their ends and
//! show the pairs that their states have, and any other trace is judged as the steps of the team judge it.

use charts::random::Random;
use charts::traces::changed;
use explore::replay::{is_shown, judged, Entry, Runs};
use explore::team::{State, Team};
use reference::answers::Rules;
use reference::refusals::decode_checked;
use reference::regions::Region;
use reference::replay::{replay, Outcome, Replay};
use reference::sizes::Teams;
use reference::witnessed::witnessed;

const CHARTS: u64 = 500;
const RUNS: usize = 4;
const CHANGED: usize = 6;
const SEED: u64 = 11_000_000;
const MOST_STATES: usize = 40_000;
/// So many steps of a run are drawn before it goes the shortest way.
const MOST_STEPS: usize = 30;
/// Counts in the exploration, and where a trace is judged.
const ENCOUNTERS: [u8; 2] = [3, 15];

/// A region of a chart, with the whole chart's numbers of its nodes and constructs.
struct Place {
    bytes: Vec<u8>,
    number: u8,
    region: Region,
    nodes: Vec<usize>,
    constructs: Vec<usize>,
}

fn numbers(places: &[Option<usize>]) -> Vec<usize> {
    let kept = (0..places.len()).filter(|&x| places[x].is_some());
    kept.collect()
}

impl Place {
    fn of(bytes: &[u8], number: u8) -> Place {
        let region = decode_checked(bytes)
            .expect("a valid chart")
            .read_for(number);
        Place {
            bytes: bytes.to_vec(),
            number,
            nodes: numbers(&region.place),
            constructs: numbers(&region.constructs),
            region,
        }
    }

    /// The trace by the numbers of the whole chart.
    fn trace(&self, entries: &[Entry]) -> Vec<u8> {
        let whole = entries.iter().map(|&[thread, node]| {
            let node = self.nodes.get(usize::from(node));
            [thread, node.map_or(255, |&x| x as u8)]
        });
        whole.collect::<Vec<_>>().concat()
    }

    fn replayed(&self, threads: usize, entries: &[Entry]) -> Replay {
        let trace = self.trace(entries);
        replay(&self.bytes, self.number.into(), &trace, threads).expect("a replay")
    }

    /// A trace shows a pair of non-barriers exactly where one of these states has two threads there.
    fn assert_shown(&self, threads: usize, entries: &[Entry], states: &[State]) {
        let trace = self.trace(entries);
        let has = |state: &State, a: usize, b: usize| {
            let places = state.nodes[..threads].iter().map(|&x| usize::from(x));
            let at = |node: usize| places.clone().filter(move |&x| x == node).count();
            at(a) > 0 && at(b) > usize::from(a == b)
        };
        let open = || (0..self.nodes.len()).filter(|&x| !self.region.chart.is_barrier(x));
        for (a, b) in open().flat_map(|a| open().map(move |b| (a, b))) {
            let [one, other] = [a, b].map(|x| self.nodes[x] as u64);
            let (number, size) = (self.number.into(), threads as u64);
            let shown = witnessed(&self.bytes, number, size, &trace, one, other);
            let met = states.iter().any(|state| has(state, a, b));
            assert_eq!(
                shown,
                met.into(),
                "{one} {other}, {trace:?}, {:02X?}",
                self.bytes
            );
        }
    }

    /// The replay and the steps of the team say the same, and lead to the same state.
    fn agree(&self, threads: usize, entries: &[Entry]) -> Outcome {
        let team = Team::new(&self.region.chart, threads, ENCOUNTERS[1]);
        let (outcome, state) = judged(&team, entries);
        let replay = self.replayed(threads, entries);
        let asked = || format!("{entries:?}, region {}, {:02X?}", self.number, self.bytes);
        assert_eq!(replay.outcome, outcome, "{}", asked());
        for (thread, record) in replay.records.iter().enumerate() {
            let node = self.nodes[usize::from(state.nodes[thread])];
            assert_eq!(record.node, node, "{}", asked());
            let shown = is_shown(&team, &state, thread, record, &self.constructs);
            assert!(shown, "{record:?}, {state:?}, {}", asked());
        }
        outcome
    }

    /// The same of a trace that was changed, which shows nothing where it is not finished. Gives the outcome's place.
    fn agree_changed(&self, threads: usize, entries: &[Entry]) -> usize {
        let place = match self.agree(threads, entries) {
            Outcome::Finished => return 0,
            Outcome::Unfinished => 1,
            Outcome::Forbidden(_) => 2,
        };
        self.assert_shown(threads, entries, &[]);
        place
    }

    /// "In a finished trace every marked pair of non-barriers is one that may meet."
    fn assert_answered(&self, threads: usize, replay: &Replay) -> usize {
        let rules = Rules::of(self.region.chart.clone());
        let judged = |node: usize| self.region.judged(node as u64).ok();
        let pairs = replay.met().into_iter();
        let open: Vec<_> = pairs
            .filter_map(|(a, b)| Some((judged(a)?, judged(b)?)))
            .collect();
        for &(a, b) in &open {
            assert_eq!(
                rules.answer(a, b),
                Rules::CONCURRENT,
                "{a} {b} {:02X?}",
                self.bytes
            );
            let sized = rules.answer_for(Teams::Of(threads as u64), a, b);
            assert_eq!(sized, Rules::CONCURRENT, "{a} {b} of {threads}");
        }
        open.len()
    }
}

#[test]
fn finished_runs_and_changed_ones() {
    let mut random = Random::new(SEED);
    let (mut runs, mut marked, mut outcomes) = (0, 0, [0; 3]);
    for seed in SEED..SEED + CHARTS {
        let bytes = charts::small(&mut Random::new(seed));
        let chart = decode_checked(&bytes).expect("a valid chart");
        let place = Place::of(&bytes, random.pick(&chart.regions()));
        let threads = random.between(1, 3);
        let team = Team::new(&place.region.chart, threads, ENCOUNTERS[0]);
        let Some(finished) = Runs::of(&team, MOST_STATES) else {
            continue;
        };
        for _ in 0..RUNS {
            let Some(run) = finished.draw(&mut random, MOST_STEPS) else {
                break;
            };
            let (steps, states): (Vec<Vec<Entry>>, Vec<State>) = run.into_iter().unzip();
            let entries = steps.concat();
            assert_eq!(place.agree(threads, &entries), Outcome::Finished);
            place.assert_shown(threads, &entries, &states);
            let replay = place.replayed(threads, &entries);
            marked += place.assert_answered(threads, &replay);
            runs += 1;
            for _ in 0..CHANGED {
                let nodes = place.nodes.len();
                let trace = changed(&mut random, entries.concat().as_slice(), threads, nodes);
                let (entries, _) = trace.as_chunks::<2>();
                outcomes[place.agree_changed(threads, entries)] += 1;
            }
        }
    }
    assert!(runs > 1_000, "{runs} runs");
    assert!(marked > 3_000, "{marked} marked");
    assert!(outcomes.iter().all(|&times| times > 100), "{outcomes:?}");
}
