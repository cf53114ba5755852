//! The region that a command is about, and the questions that it puts to the library.

use crate::arguments::{Arguments, REGION, SIZE};
use crate::json::Json;
use crate::report::Failure;
use crate::words;
use bohrali::layout::BYTES_PHASES;
use bohrali::{Answer, Lock, Refusal, Region, Size, Verdict};
use region::load::{self, Loaded, MOST_BYTES};
use region::{ConstructKind, Table, Wrong};
use std::ffi::{OsStr, OsString};
use std::io;
use std::path::Path;

/// A file with the region that it holds.
pub struct Subject {
    pub file: String,
    pub loaded: Loaded,
}

/// The team that is asked about.
#[derive(Clone, Copy, Default)]
pub struct Team {
    pub region: Region,
    pub size: Option<Size>,
}

impl Team {
    /// The one that the options name.
    pub fn named(arguments: &Arguments) -> Result<Team, Failure> {
        Ok(Team {
            region: arguments
                .number(&REGION)?
                .map_or(Region::Outermost, Region::from),
            size: arguments.number(&SIZE)?.map(Size),
        })
    }

    /// The team of another region, or this one: only its own size is known.
    pub fn in_region(self, region: Region) -> Team {
        Team {
            region,
            size: self.size.filter(|_| self.region == region),
        }
    }
}

/// The bytes of a file that is no region.
pub fn bytes(file: &OsStr, most: u64) -> Result<Vec<u8>, Failure> {
    read(file, most).map_err(|x| Failure::about(&file.to_string_lossy(), x))
}

/// The bytes of a file, or of standard input where the name is `-`.
fn read(file: &OsStr, most: u64) -> Result<Vec<u8>, String> {
    match file == "-" {
        true => load::bounded(io::stdin().lock(), most),
        false => load::bytes(Path::new(file), most),
    }
}

/// The region of a file, or what is wrong with it.
pub fn load(file: &OsStr) -> Result<Subject, Wrong> {
    let bytes = read(file, MOST_BYTES).map_err(|x| Wrong::whole(None, x))?;
    Ok(Subject {
        file: file.to_string_lossy().into_owned(),
        loaded: load::region(&bytes)?,
    })
}

impl Subject {
    pub fn read(file: &OsStr) -> Result<Subject, Failure> {
        load(file).map_err(|x| Failure::about(&file.to_string_lossy(), x))
    }

    /// All files, or what is wrong with each.
    pub fn read_all(files: &[OsString]) -> Result<Vec<Subject>, Failure> {
        let (mut subjects, mut failed): (Vec<Subject>, Option<Failure>) = (Vec::new(), None);
        for file in files {
            match Subject::read(file) {
                Ok(subject) => subjects.push(subject),
                Err(more) => {
                    failed = Some(match failed {
                        Some(before) => before.and(more),
                        None => more,
                    });
                }
            }
        }
        failed.map_or(Ok(subjects), Err)
    }

    pub fn table(&self) -> &Table {
        &self.loaded.table
    }

    pub fn nodes(&self) -> usize {
        self.loaded.counts.nodes
    }

    /// What a document says first of what was asked.
    pub fn asked(&self, team: Team) -> Vec<(&'static str, Json<'_>)> {
        vec![
            ("file", Json::text(&self.file)),
            ("region", Json::Number(team.region.number())),
            ("size", Json::option(team.size, |x| Json::Number(x.0))),
        ]
    }

    /// The team that is asked about, in words.
    pub fn team_words(&self, team: Team) -> String {
        let region = words::region(self.table(), team.region);
        match team.size {
            None => format!("{region}, teams of any size"),
            Some(Size(size)) => format!("{region}, teams of {}", words::count(size, "thread")),
        }
    }

    /// All answers, row by row.
    pub fn sheet(&self, team: Team) -> Result<Vec<u8>, Failure> {
        self.filled(self.nodes() * self.nodes(), |chart, out| match team.size {
            None => bohrali::sheet(chart, team.region, out),
            Some(size) => bohrali::sheet_sized(chart, team.region, size, out),
        })
    }

    /// Starts and ends of each node, as masks.
    pub fn phases(&self, region: Region) -> Result<Vec<(u64, u64)>, Failure> {
        let bytes = self.filled(self.nodes() * BYTES_PHASES, |chart, out| {
            bohrali::phases(chart, region, out)
        })?;
        let masks = |x: &[u8]| {
            let mask = |x: &[u8]| x.iter().rev().fold(0, |high, &x| high << 8 | u64::from(x));
            let (starts, ends) = x.split_at(BYTES_PHASES / 2);
            (mask(starts), mask(ends))
        };
        Ok(bytes.chunks(BYTES_PHASES).map(masks).collect())
    }

    pub fn distances(&self, region: Region) -> Result<Vec<u8>, Failure> {
        self.filled(self.nodes(), |chart, out| {
            bohrali::distances(chart, region, out)
        })
    }

    /// For each construct what becomes of its lock in a region; none where it is no critical of the region.
    pub fn locks(&self, team: Team) -> Result<Vec<Option<Lock>>, Failure> {
        let constructs = self.table().chart.constructs.len();
        let bytes = self.filled(constructs, |chart, out| match team.size {
            None => bohrali::locks(chart, team.region, out),
            Some(size) => bohrali::locks_sized(chart, team.region, size, out),
        })?;
        Ok(bytes.into_iter().map(Lock::of).collect())
    }

    /// What a call writes.
    pub fn filled(
        &self,
        length: usize,
        call: impl FnOnce(&[u8], &mut [u8]) -> Result<usize, Refusal>,
    ) -> Result<Vec<u8>, Failure> {
        let mut out = vec![0; length];
        let written = call(&self.loaded.bytes, &mut out).map_err(|x| self.refused(x))?;
        out.truncate(written);
        Ok(out)
    }

    pub fn pair(&self, team: Team, a: u8, b: u8) -> Result<Answer, Failure> {
        let (chart, a, b) = (&self.loaded.bytes, a.into(), b.into());
        let answer = match team.size {
            None => bohrali::pair(chart, team.region, a, b),
            Some(size) => bohrali::pair_sized(chart, team.region, size, a, b),
        };
        answer.map_err(|x| self.refused(x))
    }

    /// The first of these pairs that two threads can be at together.
    pub fn judge(&self, team: Team, pairs: &[(u8, u8)]) -> Result<Option<usize>, Failure> {
        let claims: Vec<u8> = pairs.iter().flat_map(|x| [x.0, x.1]).collect();
        let chart = &self.loaded.bytes;
        let verdict = match team.size {
            None => bohrali::judge(chart, team.region, &claims),
            Some(size) => bohrali::judge_sized(chart, team.region, size, &claims),
        };
        match verdict.map_err(|x| self.refused(x))? {
            Verdict::Pass => Ok(None),
            Verdict::Fail(index) => Ok(Some(index)),
        }
    }

    /// A refusal in words; of a region with the numbers that would not be refused.
    pub fn refused(&self, refusal: Refusal) -> Failure {
        let inner = self.table().chart.constructs_of(ConstructKind::Parallel);
        let numbers: Vec<String> = inner.map(|x| x.to_string()).collect();
        let hint = match (refusal, numbers.is_empty()) {
            (Refusal::Region, true) => "; the file has no parallel".into(),
            (Refusal::Region, false) => format!("; its parallels are {}", numbers.join(", ")),
            _ => String::new(),
        };
        Failure::about(&self.file, format!("{refusal}{hint}"))
    }
}
