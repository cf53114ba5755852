//! `bohrali locks DIR`: which criticals of a program need their lock.
//!
//! A critical can go when every pair with a critical of its name is a never in every chart that has it, and
//! none of that name is out of the charts' sight: in a task, in code left out, or in a routine not opened.

use super::decide;
use super::locks::STRICT;
use crate::arguments::{Arguments, JSON};
use crate::critical::{self, Lock, Reason};
use crate::json::Json;
use crate::report::{Colour, Failure, Report, Terminal, FOUND, GOOD};
use crate::subject::{Subject, Team};
use crate::tables;
use crate::words::{self, count};
use bohrali::Lock as Told;
use frontend::{Directory, Key, Note};
use region::{Lines, Table};
use std::collections::{BTreeMap, BTreeSet};

/// What is known of a critical, the worst last.
#[derive(Clone, Debug, PartialEq, Eq, PartialOrd, Ord)]
pub enum Known {
    CanGo { in_finished_runs: bool },
    Unsure(String),
    Needed(String),
}

impl Known {
    pub fn word(&self) -> &'static str {
        match self {
            Known::CanGo { .. } => "can go",
            Known::Unsure(_) => "not known",
            Known::Needed(_) => "needed",
        }
    }

    fn reason(&self) -> &str {
        match self {
            Known::CanGo { .. } => "",
            Known::Unsure(reason) | Known::Needed(reason) => reason,
        }
    }

    /// In which runs a lock can go, or why it is not known that it can.
    pub fn words(&self) -> &str {
        match self {
            Known::CanGo {
                in_finished_runs: false,
            } => "in every run",
            Known::CanGo {
                in_finished_runs: true,
            } => "in runs that finish",
            Known::Unsure(reason) | Known::Needed(reason) => reason,
        }
    }
}

/// Where a critical begins, and what it is called.
#[derive(Clone, Debug, PartialEq, Eq, PartialOrd, Ord)]
pub struct Critical {
    file: String,
    line: u32,
    pub place: String,
    pub kind: String,
    /// Empty if it has none.
    pub name: String,
}

/// What all charts that have a critical say.
pub struct Judged {
    pub known: Known,
    /// What the library's call for locks says of it in each chart.
    told: Vec<Option<Told>>,
    /// The answers of the pairs that were asked about.
    pub rules: BTreeSet<u8>,
}

impl Judged {
    /// Whether its lock can go, in every run or, if these are enough, in runs that finish.
    pub fn can_go(&self, in_finished_runs: bool) -> bool {
        let is_enough = |x: &Option<Told>| match x {
            Some(Told::DroppableAlways) => true,
            Some(Told::DroppableFinished) => in_finished_runs,
            Some(Told::Needed) | None => false,
        };
        matches!(self.known, Known::CanGo { .. }) && self.told.iter().all(is_enough)
    }
}

/// The criticals of a program.
pub type Criticals = BTreeMap<Critical, Judged>;

impl Critical {
    /// By its begin; the calls that lead there are no part of its place.
    pub fn of(table: &Table, begin: u8, name: String) -> Critical {
        let place = table.place(begin);
        let place = place.split(" via ").next().unwrap_or(place);
        let lines = Lines::in_cell(place).next();
        Critical {
            line: lines.as_ref().map_or(0, |x| x.first),
            file: lines.map_or(String::new(), |x| x.file),
            place: place.into(),
            kind: table.kind(begin),
            name,
        }
    }
}

pub fn run(
    directory: Directory,
    arguments: &Arguments,
    terminal: &Terminal,
) -> Result<Report, Failure> {
    let notes: Vec<Note> = directory.all_notes().cloned().collect();
    let criticals = criticals(&directory)?;
    let decided = decide::run(&criticals, &notes, arguments)?;
    let is_needed = criticals
        .values()
        .any(|x| !matches!(x.known, Known::CanGo { .. }));
    let text = match arguments.has(&JSON) {
        true => document(&criticals, &notes),
        false => text(&criticals, &notes, terminal) + &decided,
    };
    let is_strict = arguments.has(&STRICT);
    let status = if is_strict && is_needed { FOUND } else { GOOD };
    Ok(Report::of(text).with_status(status))
}

/// Each critical of a program with what is known of it over all charts.
pub fn criticals(directory: &Directory) -> Result<Criticals, Failure> {
    let mut criticals = Criticals::new();
    let notes: Vec<Note> = directory.all_notes().cloned().collect();
    for held in &directory.regions {
        let several = held.notes.of(Key::SeveralTeams).next();
        let region = tables::region(held);
        let Some(subject) = tables::subject(held) else {
            continue;
        };
        let told = subject.locks(Team::default())?;
        let locks = critical::locks(&subject, Team::default())?;
        let rules = critical::rules(&subject, &locks)?;
        for ((own, lock), rules) in locks.iter().zip(rules) {
            let name = words::name(&own.name);
            let known = match (in_chart(&subject, lock, &region), several) {
                (needed @ Known::Needed(_), _) => needed,
                (_, Some(note)) => Known::Unsure(format!(
                    "several teams may run {region} at a time, by the {} {}",
                    note.subject, note.reason
                )),
                (known, None) => out_of_sight(&notes, &name).map_or(known, Known::Unsure),
            };
            let what = Critical::of(subject.table(), own.begin, name);
            let worst = criticals.entry(what).or_insert_with(|| Judged {
                known: known.clone(),
                told: Vec::new(),
                rules: BTreeSet::new(),
            });
            worst.known = known.max(worst.known.clone());
            let told = told.get(usize::from(own.construct));
            worst.told.push(told.copied().flatten());
            worst.rules.extend(rules);
        }
    }
    Ok(criticals)
}

/// What one chart says.
fn in_chart(subject: &Subject, lock: &Lock, region: &str) -> Known {
    match lock {
        Lock::CanGo { in_every_run, .. } => Known::CanGo {
            in_finished_runs: !in_every_run,
        },
        Lock::Needed(Reason::Pair(a, b, _)) => {
            let pair = words::together(subject.table(), *a, *b);
            Known::Needed(format!("{pair}, in {region}"))
        }
        Lock::Needed(_) => Known::Needed("a critical of the same name is around it".into()),
    }
}

/// Why nothing is known of a name.
fn out_of_sight(notes: &[Note], name: &str) -> Option<String> {
    let shown = if name.is_empty() { "(unnamed)" } else { name };
    let note = notes
        .iter()
        .find(|x| x.key == Key::CriticalOutOfSight && x.subject == shown)?;
    Some(format!("another of its name is at {}", note.reason))
}

/// Routines that may hold criticals of any name.
pub fn unknown_routines(notes: &[Note]) -> BTreeSet<String> {
    let is_unknown = |x: &&Note| matches!(x.key, Key::UnknownRoutine | Key::NotRead);
    let name = |x: &Note| match x.subject.as_str() {
        "*" => "calls through pointers".into(),
        subject => subject.to_string(),
    };
    notes.iter().filter(is_unknown).map(name).collect()
}

fn text(criticals: &Criticals, notes: &[Note], terminal: &Terminal) -> String {
    let mut text = String::new();
    for (critical, Judged { known, .. }) in criticals {
        let colour = match known {
            Known::CanGo { .. } => Colour::Good,
            Known::Unsure(_) => Colour::Quiet,
            Known::Needed(_) => Colour::Warm,
        };
        let word = terminal.paint(colour, known.word());
        let pad = " ".repeat(11 - known.word().len());
        let runs = match known {
            Known::CanGo { .. } => format!(", {}", known.words()),
            _ => String::new(),
        };
        let Critical { kind, place, .. } = critical;
        text += &format!("{word}{pad}{kind} at {place}{runs}\n");
        if !known.reason().is_empty() {
            text += &format!("{:11}{}\n", "", known.reason());
        }
    }
    let number = |word: &str| {
        let words = criticals.values().map(|x| x.known.word());
        words.filter(|x| *x == word).count()
    };
    text += &format!(
        "{} can go, {} needed, {} not known\n",
        count(number("can go"), "lock"),
        number("needed"),
        number("not known")
    );
    if number("can go") > 0 {
        text += &format!("\n{}{}", condition(notes), tables::WHEN);
    }
    text
}

/// What must be so of routines that no flow was handed over for.
fn condition(notes: &[Note]) -> String {
    const SHOWN: usize = 5;
    let unknown: Vec<String> = unknown_routines(notes).into_iter().collect();
    if unknown.is_empty() {
        return String::new();
    }
    let more = match unknown.len().saturating_sub(SHOWN) {
        0 => String::new(),
        more => format!(" and {more} more, which the notes name"),
    };
    let shown = unknown[..unknown.len().min(SHOWN)].join(", ");
    format!(
        "A lock can go if no critical of its name is in routines of unknown flow: {shown}{more}.\n"
    )
}

fn document(criticals: &Criticals, notes: &[Note]) -> String {
    let each = |(critical, Judged { known, .. }): (&Critical, &Judged)| {
        Json::Object(vec![
            ("critical", Json::text(critical.kind.clone())),
            ("where", Json::text(critical.place.clone())),
            ("lock", Json::text(known.word())),
            (
                "in_every_run",
                Json::Bool(matches!(
                    known,
                    Known::CanGo {
                        in_finished_runs: false
                    }
                )),
            ),
            ("reason", Json::text(known.reason().to_string())),
        ])
    };
    Json::Object(vec![
        ("criticals", Json::list(criticals, each)),
        (
            "unknown_routines",
            Json::list(unknown_routines(notes), Json::text),
        ),
    ])
    .document()
}
