//! The certificate: no damaged trace is certified but one that is a run all the same, and rules planted wrong in the planner are
//! found by it.

use crate::generated::{answers, drawn, regions};
use bohrali::layout::ConstructKind;
use bohrali::Answer;
use charts::random::Random;
use charts::traces::changed;
use reference::witnessed::witnessed;
use std::io::Write;
use witness::plan::{chosen, Planner};
use witness::run::{Draft, Entry, MOST_THREADS};
use witness::view::{Role, View};
use witness::{certify, Error};

const SEED: u64 = 2_026_111_738;

/// What the second implementation says of a trace.
fn is_run(view: &View, draft: &Draft, a: usize, b: usize) -> bool {
    let region = view.region.number() as u64;
    let (size, trace) = (draft.threads as u64, draft.bytes());
    witnessed(view.bytes, region, size, &trace, a as u64, b as u64) == 1
}

/// Whether a draft is certified, which the second implementation agrees with.
fn is_certified(view: &View, draft: &Draft, a: usize, b: usize) -> bool {
    let certified = match certify(view, draft.clone(), a, b) {
        Ok(_) => true,
        Err(Error::NotCertified) => false,
        Err(error) => panic!("{error}"),
    };
    assert_eq!(certified, is_run(view, draft, a, b), "{a} {b}: {draft:?}");
    certified
}

/// A pair answered 0 that has a run in a small enough team, for a planner with another view of the region or the same.
fn pair(random: &mut Random, view: &View) -> Option<(usize, usize, usize)> {
    let answers = answers(view, None);
    let met: Vec<_> = answers
        .iter()
        .filter(|x| x.2 == Answer::Concurrent)
        .collect();
    if met.is_empty() {
        return None;
    }
    let &(a, b, _) = random.pick(&met);
    let least = chosen(view, a, b).1;
    (least <= MOST_THREADS).then_some((least, a, b))
}

#[test]
fn damaged_traces_are_not_certified() {
    let mut random = Random::new(SEED);
    let (mut damaged, mut legal) = (0, 0);
    for _ in 0..250 {
        let chart = drawn(&mut random);
        let view = View::read(&chart, random.pick(&regions(&chart))).expect("a region");
        let Some((threads, a, b)) = pair(&mut random, &view) else {
            continue;
        };
        let draft = Planner::new(&view, threads).and_then(|mut x| x.draft(a, b));
        let draft = draft.expect("a run");
        for _ in 0..3 {
            let trace = changed(&mut random, &draft.bytes(), threads, view.nodes());
            let entries = trace.chunks_exact(2).map(|x| Entry {
                thread: x[0],
                node: x[1],
            });
            let other = Draft {
                trace: entries.collect(),
                ..draft.clone()
            };
            if other != draft {
                damaged += 1;
                legal += usize::from(is_certified(&view, &other, a, b));
            }
        }
    }
    let line = format!("{damaged} damaged traces, of which {legal} are runs all the same");
    writeln!(std::io::stderr(), "{line}").expect("standard error is open");
    assert!(legal * 10 < damaged);
}

/// A wrong rule, as a wrong view of the region; false where the chart has no place for it.
type Fault = fn(&mut View, &mut Random) -> bool;

const FAULTS: [(&str, Fault); 7] = [
    ("any thread goes into a single", |view, _| {
        retype(view, ConstructKind::Single, ConstructKind::Do)
    }),
    ("any thread goes into a master", |view, _| {
        retype(view, ConstructKind::Master, ConstructKind::Do)
    }),
    ("a master is the next thread's", |view, _| {
        let frames = view.constructs.iter_mut();
        let masters = frames.filter(|x| x.kind == ConstructKind::Master);
        masters.map(|x| x.filter += 1).count() > 0
    }),
    ("an ordered waits for nobody", |view, _| {
        retype(view, ConstructKind::Ordered, ConstructKind::Critical)
    }),
    ("sections need not be taken", |view, _| {
        let frames = view.constructs.iter_mut();
        frames.map(|x| x.sections.clear()).count() > 0
    }),
    ("a barrier is passed", |view, random| {
        let (start, finish) = (view.start, view.finish);
        let inner: Vec<usize> = view
            .barriers
            .iter()
            .copied()
            .filter(|&x| x != start && x != finish)
            .collect();
        if inner.is_empty() {
            return false;
        }
        let barrier = random.pick(&inner);
        view.barriers.retain(|&x| x != barrier);
        view.role[barrier] = Role::Plain;
        true
    }),
    ("an edge that is not there", |view, random| {
        let open: Vec<usize> = (0..view.nodes()).filter(|&v| view.is_open(v)).collect();
        let (from, to) = (random.pick(&open), random.pick(&open));
        view.next[from].push(to);
        true
    }),
];

/// Constructs of one kind taken for another.
fn retype(view: &mut View, from: ConstructKind, to: ConstructKind) -> bool {
    let frames = view.constructs.iter_mut();
    let found = frames.filter(|x| x.kind == from);
    found.map(|x| x.kind = to).count() > 0
}

#[test]
fn planted_faults_are_found_by_the_certificate() {
    for (name, plant) in FAULTS {
        let mut random = Random::new(SEED);
        let (mut runs, mut refused) = (0, 0);
        while refused < 5 {
            assert!(runs < 3_000, "{name}: {refused} of {runs} runs refused");
            let chart = drawn(&mut random);
            let view = View::read(&chart, random.pick(&regions(&chart))).expect("a region");
            let mut wrong = view.clone();
            let Some((threads, a, b)) =
                pair(&mut random, &view).filter(|_| plant(&mut wrong, &mut random))
            else {
                continue;
            };
            let draft = Planner::new(&wrong, threads).and_then(|mut x| x.draft(a, b));
            if let Some(draft) = draft {
                runs += 1;
                refused += usize::from(!is_certified(&view, &draft, a, b));
            }
        }
        writeln!(
            std::io::stderr(),
            "{name}: {refused} of {runs} runs refused"
        )
        .expect("standard error is open");
    }
}
