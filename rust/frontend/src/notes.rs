//! What a person must know beside a region's table: a text of rows `KEY: SUBJECT, REASON`, which the command
//! reads again.

use crate::problem::Problem;
use std::fmt;

const HEADER: &str = "bohrali-notes 1";

/// What a note is about.
#[derive(Clone, Copy, Debug, PartialEq, Eq, PartialOrd, Ord)]
pub enum Key {
    /// The region's function, and where the region is.
    Region,
    /// How many threads the region asks for.
    Threads,
    /// The region has no table, and why.
    NoChart,
    /// The region may be run by several teams at a time, so that its chart does not speak of all threads.
    SeveralTeams,
    /// A source line without an answer, and why.
    NoAnswer,
    /// A branch that all threads have to take alike, as OpenMP demands where barriers follow.
    BranchAlike,
    /// A routine with barriers or constructs of the team that was not opened, and why.
    NotOpened,
    /// A routine of unknown flow that the region may call.
    UnknownRoutine,
    /// The name of a critical that the region's threads may come to and the chart does not have, and where.
    CriticalOutOfSight,
    /// What was taken for less than it is.
    TakenForLess,
    /// What the limits of a chart cost.
    LostToLimits,
    /// A table of this directory.
    Table,
    /// A function that the compiler's side gave up, and why.
    NotRead,
    /// A trace of this directory, and the table of its region.
    Trace,
    /// A trace that is not all of its instance, and why.
    Cut,
    /// Instances of a region without a trace, and why.
    LeftOut,
    /// How many entries of all traces are filled in from the charts, and what they are.
    FilledIn,
    /// What the log as a whole lacks.
    Log,
}

impl Key {
    /// By the words of the text, in the order in which they are written.
    const WORDS: [(&'static str, Key); 18] = [
        ("region", Key::Region),
        ("threads", Key::Threads),
        ("no chart", Key::NoChart),
        ("several teams", Key::SeveralTeams),
        ("no answer", Key::NoAnswer),
        ("all threads branch alike", Key::BranchAlike),
        ("not opened", Key::NotOpened),
        ("unknown routine", Key::UnknownRoutine),
        ("critical out of sight", Key::CriticalOutOfSight),
        ("taken for less", Key::TakenForLess),
        ("lost to the limits", Key::LostToLimits),
        ("table", Key::Table),
        ("not read", Key::NotRead),
        ("trace", Key::Trace),
        ("cut", Key::Cut),
        ("left out", Key::LeftOut),
        ("filled in", Key::FilledIn),
        ("log", Key::Log),
    ];

    pub fn word(self) -> &'static str {
        let found = Self::WORDS.iter().find(|x| x.1 == self);
        found.map_or("", |x| x.0)
    }
}

#[derive(Clone, Debug, PartialEq, Eq, PartialOrd, Ord)]
pub struct Note {
    pub key: Key,
    pub subject: String,
    /// May be empty.
    pub reason: String,
}

impl fmt::Display for Note {
    fn fmt(&self, out: &mut fmt::Formatter) -> fmt::Result {
        write!(out, "{}: {}", self.key.word(), self.subject)?;
        match self.reason.as_str() {
            "" => Ok(()),
            reason => write!(out, ", {reason}"),
        }
    }
}

#[derive(Clone, Debug, Default, PartialEq, Eq)]
pub struct Notes(Vec<Note>);

impl Notes {
    pub fn add(&mut self, key: Key, subject: impl Into<String>, reason: impl Into<String>) {
        self.0.push(Note {
            key,
            subject: subject.into(),
            reason: reason.into(),
        });
    }

    pub fn iter(&self) -> impl Iterator<Item = &Note> {
        self.0.iter()
    }

    pub fn of(&self, key: Key) -> impl Iterator<Item = &Note> {
        self.0.iter().filter(move |x| x.key == key)
    }

    /// The text, by key.
    pub fn write(&self) -> String {
        let mut notes: Vec<&Note> = self.0.iter().collect();
        notes.sort_by_key(|x| x.key);
        let rows: String = notes.iter().map(|x| format!("{x}\n")).collect();
        format!("{HEADER}\n{rows}")
    }

    /// The notes of a text; a row that is not known is an error.
    pub fn read(path: &str, text: &[u8]) -> Result<Notes, Problem> {
        let wrong = |row: usize, message: String| Problem {
            path: path.into(),
            row: Some(row),
            message,
        };
        let Ok(text) = std::str::from_utf8(text) else {
            return Err(Problem::whole(
                path,
                "these are no notes: the text is no UTF-8",
            ));
        };
        let mut rows = text.lines();
        if rows.next() != Some(HEADER) {
            return Err(wrong(
                1,
                format!("these are no notes: '{HEADER}' is expected"),
            ));
        }
        let mut notes = Notes::default();
        for (row, line) in rows.enumerate() {
            let (word, rest) = line.split_once(": ").unwrap_or((line, ""));
            let Some((_, key)) = Key::WORDS.iter().find(|x| x.0 == word) else {
                return Err(wrong(
                    row + 2,
                    format!("'{word}' is nothing that notes are about"),
                ));
            };
            let (subject, reason) = rest.split_once(", ").unwrap_or((rest, ""));
            notes.add(*key, subject, reason);
        }
        Ok(notes)
    }
}
