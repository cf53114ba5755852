//! `bohrali locks`: which criticals need their lock.

use super::decide::{self, ASSUME, DECIDE, FINISHED};
use super::{program_locks, Command};
use crate::arguments::{Arguments, Opt, JSON, REGION, SIZE, WHY};
use crate::critical::{self, Critical, Lock, Reason};
use crate::evidence::Evidence;
use crate::json::Json;
use crate::report::{Colour, Failure, Report, Terminal, FOUND, GOOD};
use crate::subject::{Subject, Team};
use crate::tables;
use crate::words::{self, count};
use witness::Why;

pub const STRICT: Opt = Opt {
    name: "--strict",
    value: None,
    help: "status 1 where a lock is needed",
};
const ONE_TEAM: Opt = Opt {
    name: "--one-team-at-a-time",
    value: None,
    help: "no two of the files' regions are ever executed at the same time",
};

pub const COMMAND: Command = Command {
    name: "locks",
    operands: "FILE.. | DIR",
    count: (1, usize::MAX),
    summary: "each critical: its lock can go, or the pair that needs it",
    details: &[
        "The lock of a critical can go where no node inside it and no node inside a critical of its name, itself
included, can have two threads together, in each region around both: its begin and end are not inside.
All locks that can go may go at once. A critical that has one of its own name around it keeps its lock.",
        "Criticals of one name in several files share their lock, and what teams of different files do at the
same time no file says: such locks are needed, unless --one-team-at-a-time is given. A name that is a
number in one file may be any name of another.",
        "Of a DIR each critical of the program is told once: its lock can go where every chart that has it says so
and none of its name is in a task, in code that the charts leave out, or in a routine that is not opened.",
        tables::HELP,
        decide::HELP,
        "The answers are proved. What is put together of them here, over the regions around two criticals and
over several files, is tested.",
        "With --size the team of --region, the outermost if not given, has just that size; teams of all other
regions any. In the JSON document 'pair' and 'region' are null where a lock can go, and where it is needed
for another critical around it or in another file.",
    ],
    options: &[
        STRICT, WHY, ONE_TEAM, REGION, SIZE, JSON, DECIDE, FINISHED, ASSUME,
    ],
    run,
};

fn run(arguments: &Arguments, terminal: &Terminal) -> Result<Report, Failure> {
    if let Some(directory) = tables::named(arguments)? {
        return program_locks::run(directory, arguments, terminal);
    }
    decide::expect_none(arguments)?;
    let team = Team::named(arguments)?;
    if arguments.has(&REGION) && team.size.is_none() {
        let message =
            "locks: --region says whose size --size is, and wants it; all regions are asked";
        return Err(Failure::words(message));
    }
    let subjects = Subject::read_all(&arguments.operands)?;
    let mut locks = Vec::new();
    for subject in &subjects {
        subject.distances(team.region)?;
        locks.extend(critical::locks(subject, team)?);
    }
    critical::share(&mut locks, arguments.has(&ONE_TEAM));
    let runs: Result<Vec<_>, Failure> = match arguments.has(&WHY) {
        true => locks.iter().filter_map(|x| shown(x, team)).collect(),
        false => Ok(Vec::new()),
    };
    let runs = runs?;
    let text = match arguments.has(&JSON) {
        true => document(&locks, &runs, arguments.has(&WHY)),
        false => {
            let runs = runs.iter().map(|x| x.text(terminal));
            text(&subjects, &locks, team, terminal) + &runs.collect::<String>()
        }
    };
    let is_needed = locks.iter().any(|x| matches!(x.1, Lock::Needed(_)));
    Ok(
        Report::of(text).with_status(match is_needed && arguments.has(&STRICT) {
            true => FOUND,
            false => GOOD,
        }),
    )
}

/// The pair that needs a lock, with what shows it.
struct Shown<'a> {
    critical: &'a Critical<'a>,
    evidence: Evidence<'a>,
    why: Why,
}

fn shown<'a>((own, lock): &'a (Critical, Lock), team: Team) -> Option<Result<Shown<'a>, Failure>> {
    let Lock::Needed(Reason::Pair(a, b, region)) = *lock else {
        return None;
    };
    let size = team.size.filter(|_| team.region == region);
    let shown = Evidence::of(own.subject, Team { region, size }).and_then(|evidence| {
        let why = evidence.why(a, b)?;
        Ok(Shown {
            critical: own,
            evidence,
            why,
        })
    });
    Some(shown)
}

impl Shown<'_> {
    fn text(&self, terminal: &Terminal) -> String {
        let what = self.critical.words();
        format!(
            "\n{what}:\n{}",
            self.evidence.text(&self.why, false, terminal)
        )
    }
}

fn text(
    subjects: &[Subject],
    locks: &[(Critical, Lock)],
    team: Team,
    terminal: &Terminal,
) -> String {
    let mut text = String::new();
    for subject in subjects {
        let is_own = |x: &&(Critical, Lock)| std::ptr::eq(x.0.subject, subject);
        let own: Vec<&(Critical, Lock)> = locks.iter().filter(is_own).collect();
        text += &format!("{}: {}\n", subject.file, count(own.len(), "critical"));
        for (critical, lock) in own {
            text += &verdict(critical, lock, terminal);
        }
    }
    let needed = locks
        .iter()
        .filter(|x| matches!(x.1, Lock::Needed(_)))
        .count();
    let gone = count(locks.len() - needed, "lock");
    text += &format!("{gone} can go, {needed} needed\n");
    match locks.is_empty() {
        true => text,
        false => text + &beside(locks, team),
    }
}

/// A critical with its verdict, and on a second line why its lock is needed.
fn verdict(critical: &Critical, lock: &Lock, terminal: &Terminal) -> String {
    let what = critical.words();
    match lock {
        Lock::CanGo { also_in, .. } => {
            let word = terminal.paint(Colour::Good, "can go");
            let runs = critical.lock_words(lock);
            let also = also_in.as_ref().map_or(String::new(), |file| {
                format!("{:12}where no team of {file} works at the same time\n", "")
            });
            format!("    {word}  {what}, {runs}\n{also}")
        }
        Lock::Needed(_) => {
            let (word, why) = (
                terminal.paint(Colour::Warm, "needed"),
                critical.lock_words(lock),
            );
            format!("    {word}  {what}\n{:12}{why}\n", "")
        }
    }
}

/// What a person is to know beside the verdicts.
fn beside(locks: &[(Critical, Lock)], team: Team) -> String {
    let mut text = "\n\
        A verdict is about one team of each file at a time. Names are program-wide: criticals of the same name\n\
        in code that the files do not hold (other routines, tasks, host threads) count for nothing here. Where\n\
        an edge is added, ask again.\n"
        .to_string();
    let is_finished = |x: &(Critical, Lock)| {
        matches!(
            x.1,
            Lock::CanGo {
                in_every_run: false,
                ..
            }
        )
    };
    if locks.iter().any(is_finished) {
        text += "'In runs that finish': in a run that hangs, because threads wait at different barriers, two threads\n\
            may be inside together.\n";
    }
    if let Some(size) = team.size {
        text += &format!(
            "All this holds for teams of {} only.\n",
            count(size.0, "thread")
        );
    }
    text
}

/// With `why` for each critical also what shows the pair that needs its lock, or null.
fn document(locks: &[(Critical, Lock)], runs: &[Shown], why: bool) -> String {
    let criticals = locks.iter().map(|own| {
        let mut fields = critical_fields(own);
        if why {
            let run = runs.iter().find(|x| std::ptr::eq(x.critical, &own.0));
            fields.push(("why", Json::option(run, |x| x.evidence.document(&x.why))));
        }
        Json::Object(fields)
    });
    Json::Object(vec![("criticals", Json::List(criticals.collect()))]).document()
}

fn critical_fields<'a>((own, lock): &'a (Critical<'a>, Lock)) -> Vec<(&'static str, Json<'a>)> {
    let (pair, region) = match lock {
        Lock::Needed(Reason::Pair(a, b, region)) => (Some([*a, *b]), Some(region.number())),
        _ => (None, None),
    };
    let word = match lock {
        Lock::CanGo { .. } => "can go",
        Lock::Needed(_) => "needed",
    };
    vec![
        ("file", Json::text(&own.subject.file)),
        ("construct", Json::number(own.construct)),
        ("name", Json::text(words::name(&own.name))),
        ("begin", Json::number(own.begin)),
        ("end", Json::number(own.end)),
        ("where", Json::text(own.subject.table().place(own.begin))),
        ("lock", Json::text(word)),
        ("pair", Json::option(pair, |x| Json::list(x, Json::number))),
        ("region", Json::option(region, Json::Number)),
    ]
}
