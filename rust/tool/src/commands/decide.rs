//! `bohrali locks DIR --decide FILE`: which locks the next build leaves out.
//!
//! Only verdicts of the library's call for locks count, those of every chart that has the critical. What no
//! chart can tell is a condition; each kind that is open has to be vouched for by name.

use super::program_locks::{unknown_routines, Critical, Criticals, Judged};
use crate::arguments::{Arguments, Opt};
use crate::report::Failure;
use crate::tables;
use crate::words::count;
use frontend::{directory, hash, CriticalAt, Key, Note, Units};
use std::collections::BTreeSet;
use std::fs;
use std::path::Path;

pub const DECIDE: Opt = Opt {
    name: "--decide",
    value: Some("FILE"),
    help: "write to FILE which locks of a DIR 'bohrali-gcc --drop FILE' leaves out",
};
pub const FINISHED: Opt = Opt {
    name: "--finished",
    value: None,
    help: "with --decide: also locks that can go only in runs that finish",
};
pub const ASSUME: Opt = Opt {
    name: "--assume",
    value: Some("NAME.."),
    help: "with --decide: vouch for a kind of condition; may be given several times",
};

pub const HELP: &str =
    "With --decide the locks that can go in every run are written to FILE, for the build that leaves them out;
docs/DROPPING.md tells how. What the charts cannot tell has to be vouched for, by --assume and a name: of
the kinds conforming, one-host-thread, whole-program and unknown-routines those that are open. Without one
of them nothing is written, and what is missing is said. Also with acquire-release a lighter fence stays
in place of each lock.";

const HEADER: &str = "bohrali-decisions 1";
const LIGHT: &str = "acquire-release";

/// A kind of condition under which verdicts hold.
struct Condition {
    name: &'static str,
    meaning: String,
}

/// That no option for decisions is given.
pub fn expect_none(arguments: &Arguments) -> Result<(), Failure> {
    match [&DECIDE, &FINISHED, &ASSUME]
        .into_iter()
        .find(|x| arguments.has(x))
    {
        None => Ok(()),
        Some(option) => Err(Failure::words(format!(
            "locks: {} is about a whole program, and wants a directory that 'bohrali regions' wrote",
            option.name
        ))),
    }
}

/// Decides, where it is asked for, and says what was decided.
pub fn run(
    criticals: &Criticals,
    notes: &[Note],
    arguments: &Arguments,
) -> Result<String, Failure> {
    let Some(out) = arguments.value(&DECIDE) else {
        let wants = |x: &Opt| format!("locks: {} is for --decide", x.name);
        let alone = [&FINISHED, &ASSUME].into_iter().find(|x| arguments.has(x));
        return alone.map_or(Ok(String::new()), |x| Err(Failure::words(wants(x))));
    };
    let path = Path::new(&arguments.operands[0]);
    let units = directory::read_units(path).map_err(|x| tables::failure(vec![x]))?;
    let open = conditions(notes);
    let assumed = assumed(arguments, &open)?;
    let is_finished = arguments.has(&FINISHED);
    let can_go = |x: &(&Critical, &Judged)| x.1.can_go(is_finished);
    let going: Vec<(&Critical, &Judged)> = criticals.iter().filter(can_go).collect();
    let missing: Vec<&Condition> = open.iter().filter(|x| !assumed.contains(x.name)).collect();
    if !going.is_empty() && !missing.is_empty() {
        return Err(undecided(path, going.len(), &missing));
    }
    let text = decisions(path, &units, &going, &open, assumed.contains(LIGHT))?;
    let name = out.to_string_lossy();
    let failed = |x| Failure::about(&name, format!("the file cannot be written: {x}"));
    fs::write(Path::new(out), text).map_err(failed)?;
    Ok(summary(criticals, &name, &going, is_finished))
}

fn summary(
    criticals: &Criticals,
    name: &str,
    going: &[(&Critical, &Judged)],
    is_finished: bool,
) -> String {
    let kept = criticals.values().filter(|x| x.can_go(true)).count() - going.len();
    let more = match kept {
        0 => String::new(),
        _ if is_finished => String::new(),
        _ => format!("; {kept} more can go in runs that finish, with --finished"),
    };
    let locks = count(going.len(), "lock");
    format!("\n{name}: {locks} to be left out, by bohrali-gcc --drop {name}{more}\n")
}

/// The kinds that are open in a program.
fn conditions(notes: &[Note]) -> Vec<Condition> {
    let branches = notes.iter().filter(|x| x.key == Key::BranchAlike);
    let branches: BTreeSet<&str> = branches.map(|x| x.subject.as_str()).collect();
    let alike = match branches.is_empty() {
        true => String::new(),
        false => format!(
            "; so all take the branches at {} alike",
            branches.into_iter().collect::<Vec<_>>().join(", ")
        ),
    };
    let condition = |name: &'static str, meaning: String| Condition { name, meaning };
    let mut open = vec![
        condition(
            "conforming",
            format!(
                "the program obeys OpenMP: each barrier is met by all threads of a team or by none{alike}; no \
                 longjmp and no signal comes into a region or out of it"
            ),
        ),
        condition(
            "one-host-thread",
            "no two host threads run parallel regions at the same time".into(),
        ),
        condition(
            "whole-program",
            "code without a flow that is linked or loaded has no critical of these names and runs none of the \
             program's routines in threads of its own"
                .into(),
        ),
    ];
    let unknown = unknown_routines(notes);
    if !unknown.is_empty() {
        let routines: Vec<String> = unknown.into_iter().collect();
        open.push(condition(
            "unknown-routines",
            format!(
                "these have no critical of these names and call none of the program's routines: {}",
                routines.join(", ")
            ),
        ));
    }
    open
}

/// The kinds that are vouched for.
fn assumed(arguments: &Arguments, open: &[Condition]) -> Result<BTreeSet<String>, Failure> {
    const ALL: [&str; 5] = [
        "conforming",
        "one-host-thread",
        "whole-program",
        "unknown-routines",
        LIGHT,
    ];
    debug_assert!(open.iter().all(|x| ALL.contains(&x.name)));
    let typed = arguments
        .value(&ASSUME)
        .map_or(String::new(), |x| x.to_string_lossy().into_owned());
    let names: BTreeSet<String> = typed
        .split(',')
        .filter(|x| !x.is_empty())
        .map(String::from)
        .collect();
    match names.iter().find(|x| !ALL.contains(&x.as_str())) {
        None => Ok(names),
        Some(name) => Err(Failure::words(format!(
            "locks: --assume knows no '{name}', but {}",
            ALL.join(", ")
        ))),
    }
}

/// What has to be vouched for before anything goes.
fn undecided(path: &Path, going: usize, missing: &[&Condition]) -> Failure {
    let mut text = format!(
        "nothing is decided: {} can go only if what follows is so; add what you vouch for\n",
        count(going, "lock")
    );
    for condition in missing {
        text += &format!("  --assume {}: {}\n", condition.name, condition.meaning);
    }
    Failure::about(&path.display().to_string(), text)
}

/// The text of the decisions: its rows are sorted, and the last one is the hash of those before.
fn decisions(
    path: &Path,
    units: &Units,
    going: &[(&Critical, &Judged)],
    open: &[Condition],
    is_light: bool,
) -> Result<String, Failure> {
    let mut rows = BTreeSet::new();
    for unit in &units.units {
        let Some(hash) = &unit.hash else {
            let message = "has no hash in its flow: compile it with the plugin of this release";
            return Err(Failure::about(&unit.path, message));
        };
        rows.insert(format!("unit {hash} {}\n", unit.path));
    }
    let kinds: Vec<&str> = open.iter().map(|x| x.name).collect();
    let mut dropped = BTreeSet::new();
    for (critical, judged) in going {
        let is_same =
            |x: &&CriticalAt| x.place == critical.place && x.table_name() == critical.name;
        let before = dropped.len();
        for at in units.criticals.iter().filter(is_same) {
            dropped.insert(row(at, judged, &kinds));
        }
        if dropped.len() == before {
            let message = format!("the units have no critical at {}", critical.place);
            return Err(Failure::about(&path.display().to_string(), message));
        }
    }
    let fence = if is_light { "light" } else { "full" };
    let mut text = format!("{HEADER}\nfence {fence}\n");
    text.extend(kinds.iter().map(|x| format!("assumed {x}\n")));
    text.extend(rows.into_iter().chain(dropped));
    let sum = hash(text.as_bytes());
    Ok(format!("{text}complete {sum}\n"))
}

fn row(at: &CriticalAt, judged: &Judged, kinds: &[&str]) -> String {
    let rules: Vec<String> = judged.rules.iter().map(u8::to_string).collect();
    let runs = if judged.can_go(false) {
        "every"
    } else {
        "finished"
    };
    format!(
        "drop {} {} {} number={} name={} flow={} rules={} runs={runs} if={}\n",
        at.unit.path,
        at.function,
        at.place,
        at.number,
        at.name,
        at.unit.hash.as_deref().unwrap_or("-"),
        rules.join(","),
        kinds.join(",")
    )
}
