//! What is told on the page beside the regions: criticals with their locks, and the notes of a compiled program.

use super::Program;
use crate::commands::program_locks::{self, Judged, Known};
use crate::critical::{self, Critical, Lock, Reason};
use crate::json::Json;
use crate::report::Failure;
use crate::subject::{Subject, Team};
use crate::tables;
use crate::words;
use frontend::{Held, Key, Notes};

/// The criticals of all files.
pub struct Locks<'a> {
    locks: Vec<(Critical<'a>, Lock)>,
    program: Option<&'a Program>,
}

impl<'a> Locks<'a> {
    /// As `locks` tells them of the files, or of the directory. Files are parts of one program, or not.
    pub fn of(
        subjects: &'a [Subject],
        is_program: bool,
        program: Option<&'a Program>,
    ) -> Result<Locks<'a>, Failure> {
        let mut locks = Vec::new();
        for subject in subjects {
            locks.extend(critical::locks(subject, Team::default())?);
        }
        if is_program && program.is_none() {
            critical::share(&mut locks, false);
        }
        Ok(Locks { locks, program })
    }

    /// Those of one file.
    pub fn document(&self, subject: &Subject) -> Json<'a> {
        let is_own = |x: &&(Critical, Lock)| std::ptr::eq(x.0.subject, subject);
        Json::list(self.locks.iter().filter(is_own), |x| self.lock(&x.0, &x.1))
    }

    /// A critical with what becomes of its lock, and the pair of its chart that needs it.
    fn lock(&self, own: &Critical, lock: &Lock) -> Json<'a> {
        let pair = match lock {
            Lock::Needed(Reason::Pair(a, b, region)) => Some((*a, *b, region.number())),
            _ => None,
        };
        let (word, words) = match self.known(own) {
            Some(known) => (known.word(), known.words().to_string()),
            None => {
                let can_go = matches!(lock, Lock::CanGo { .. });
                let word = if can_go { "can go" } else { "needed" };
                (word, own.lock_words(lock))
            }
        };
        Json::Object(vec![
            ("construct", Json::number(own.construct)),
            ("lock", Json::text(word)),
            ("words", Json::text(words)),
            (
                "pair",
                Json::option(pair, |x| Json::list([x.0, x.1], Json::number)),
            ),
            ("region", Json::option(pair, |x| Json::Number(x.2))),
        ])
    }

    /// What is known of it in the whole program.
    fn known(&self, own: &Critical) -> Option<&'a Known> {
        let name = words::name(&own.name);
        let place = program_locks::Critical::of(own.subject.table(), own.begin, name);
        Some(&self.program?.criticals.get(&place)?.known)
    }
}

impl Program {
    /// The regions that have a table.
    pub fn regions(&self) -> impl Iterator<Item = &Held> {
        let regions = self.directory.regions.iter();
        regions.filter(|x| x.loaded.is_some())
    }

    pub fn document(&self) -> Json<'_> {
        let critical = |(own, judged): (&program_locks::Critical, &Judged)| {
            let known = &judged.known;
            Json::Object(vec![
                ("critical", Json::text(own.kind.clone())),
                ("where", Json::text(own.place.clone())),
                ("lock", Json::text(known.word())),
                ("words", Json::text(known.words().to_string())),
            ])
        };
        let regions = self.directory.regions.iter();
        let without = regions.filter(|x| x.loaded.is_none());
        Json::Object(vec![
            ("when", Json::text(tables::WHEN)),
            ("criticals", Json::list(&self.criticals, critical)),
            ("notes", notes(&self.directory.notes)),
            (
                "without",
                Json::list(without, |x| Json::Object(named(Some(x)))),
            ),
        ])
    }
}

/// What a region is called, and its notes; a file by itself has neither.
pub fn named(held: Option<&Held>) -> Vec<(&'static str, Json<'_>)> {
    let own = held.map(|x| x.notes.of(Key::Region).next());
    let name = match (own, held) {
        (Some(Some(note)), _) => Json::text(format!("{} at {}", note.subject, note.reason)),
        (_, Some(held)) => Json::text(&held.name),
        (_, None) => Json::Null,
    };
    let told = held.map_or(Json::List(Vec::new()), |x| notes(&x.notes));
    vec![("name", name), ("notes", told)]
}

/// Notes as their key and the rest, without those that only name a region or a table.
fn notes(notes: &Notes) -> Json<'_> {
    let is_told = |x: &&frontend::Note| !matches!(x.key, Key::Region | Key::Table);
    Json::list(notes.iter().filter(is_told), |x| {
        let word = x.key.word();
        let row = x.to_string();
        let rest = row[word.len()..].trim_start_matches(": ").to_string();
        Json::List(vec![Json::text(word), Json::text(rest)])
    })
}
