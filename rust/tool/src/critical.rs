//! The criticals of a region, and whether each needs its lock.
//!
//! A critical can lose its lock where every pair of a node inside it with a node inside a critical of its
//! name, itself included, is a never, in every region around both criticals. The region of an inner team is
//! not enough: two threads of the outer team may each have opened such a team. Regions inside a critical do
//! not count: their teams work for the one thread that is in it.
//!
//! Of the criticals of one region the library's own call tells it. What that leaves open is asked as claims:
//! which pair needs a lock, and pairs with criticals of deeper regions.

use crate::report::Failure;
use crate::subject::{Subject, Team};
use crate::words;
use bohrali::{Answer, Lock as Told, Region};
use region::{ConstructKind, Name};
use std::collections::btree_map::Entry;
use std::collections::{BTreeMap, BTreeSet};

/// A critical construct of a file.
pub struct Critical<'a> {
    pub subject: &'a Subject,
    pub construct: u8,
    pub name: Name,
    pub begin: u8,
    pub end: u8,
    /// The nodes inside it, at any depth.
    nodes: Vec<u8>,
}

pub enum Lock {
    CanGo {
        /// Whether that holds in runs that do not finish too.
        in_every_run: bool,
        /// A file that has a critical which may be of the same name.
        also_in: Option<String>,
    },
    Needed(Reason),
}

pub enum Reason {
    /// Two nodes that two threads can be at together, in this region.
    Pair(u8, u8, Region),
    /// A critical of the same name around it or inside it, in another region: one team is inside both.
    Around(u8),
    /// A file that has a critical which may be of the same name.
    OtherFile(String),
}

/// The criticals of a file, by their numbers.
pub fn all(subject: &Subject) -> Vec<Critical<'_>> {
    let table = subject.table();
    let chart = &table.chart;
    let numbers = chart.constructs_of(ConstructKind::Critical);
    let critical = |construct: u8| {
        let nodes = (0u8..).take(chart.nodes.len());
        Some(Critical {
            subject,
            construct,
            name: table.names.name(chart.construct(construct)?.name),
            begin: chart.begin(construct)?,
            end: chart.end(construct)?,
            nodes: nodes.filter(|&x| chart.inside(x, construct)).collect(),
        })
    };
    numbers.filter_map(critical).collect()
}

impl Critical<'_> {
    /// Whether a critical of another file may have the same lock. A number is some name, and which one only
    /// who gave it knows.
    pub fn may_share(&self, other: &Critical) -> bool {
        match (&self.name, &other.name) {
            (Name::Number(_), Name::Word(_)) | (Name::Word(_), Name::Number(_)) => true,
            (one, other) => one == other,
        }
    }

    /// The critical with its place.
    pub fn words(&self) -> String {
        let table = self.subject.table();
        let kind = table.kind(self.begin);
        let frame = format!(
            "construct {}, nodes {} to {}",
            self.construct, self.begin, self.end
        );
        match table.place(self.begin) {
            "" => format!("{kind} ({frame})"),
            place => format!("{kind} at {place} ({frame})"),
        }
    }

    /// In which runs its lock can go, or why it is needed.
    pub fn lock_words(&self, lock: &Lock) -> String {
        let reason = match lock {
            Lock::CanGo {
                in_every_run: true, ..
            } => return "in every run".into(),
            Lock::CanGo { .. } => return "in runs that finish".into(),
            Lock::Needed(reason) => reason,
        };
        let table = self.subject.table();
        match reason {
            Reason::Pair(a, b, region) => {
                let region = words::region(table, *region);
                format!("{}, in {region}", words::together(table, *a, *b))
            }
            Reason::Around(other) => {
                format!("construct {other}, a critical of the same name, is around it or inside it")
            }
            Reason::OtherFile(file) => {
                format!("{file} has a critical that may be of the same name")
            }
        }
    }

    /// Whether the critical lies in a region, at any depth.
    fn is_in(&self, region: Region) -> bool {
        match region {
            Region::Outermost => true,
            Region::Parallel(number) => {
                let mut around = self.subject.table().chart.enclosing(self.construct);
                around.any(|x| usize::from(x) == number)
            }
        }
    }

    /// Each node inside it with each node inside one of these.
    fn pairs<'a>(&self, others: impl Iterator<Item = &'a Critical<'a>>) -> Vec<(u8, u8)> {
        let nodes: BTreeSet<u8> = others.flat_map(|x| x.nodes.iter().copied()).collect();
        let each = self.nodes.iter();
        each.flat_map(|&a| nodes.iter().map(move |&b| (a, b)))
            .collect()
    }

    fn is_around(&self, other: &Critical) -> bool {
        let mut around = self.subject.table().chart.enclosing(other.construct);
        around.any(|x| x == self.construct)
    }
}

/// The criticals of one file with their locks, as far as the runs of its own teams go. `team` names a region
/// whose team is of just one size; all other teams are of any.
pub fn locks(subject: &Subject, team: Team) -> Result<Vec<(Critical<'_>, Lock)>, Failure> {
    let mut asking = Asking {
        subject,
        team,
        criticals: all(subject),
        answers: BTreeMap::new(),
    };
    let numbers = 0..asking.criticals.len();
    let locks: Result<Vec<Lock>, Failure> = numbers.map(|x| asking.lock(x)).collect();
    Ok(asking.criticals.into_iter().zip(locks?).collect())
}

/// Of each critical of a flat chart the answers of all pairs that its lock is about.
pub fn rules(subject: &Subject, locks: &[(Critical, Lock)]) -> Result<Vec<BTreeSet<u8>>, Failure> {
    let sheet = subject.sheet(Team::default())?;
    let answer = |(a, b): (u8, u8)| sheet[usize::from(a) * subject.nodes() + usize::from(b)];
    let of = |own: &Critical| {
        let same = locks.iter().map(|x| &x.0).filter(|x| x.name == own.name);
        own.pairs(same).into_iter().map(answer).collect()
    };
    Ok(locks.iter().map(|x| of(&x.0)).collect())
}

/// Criticals of one name in two files share their lock. Whether teams of two regions work at the same time,
/// because one is reached from inside the other or several host threads come to them, no file says: the locks
/// stay, unless it is said here that they do not.
pub fn share(locks: &mut [(Critical, Lock)], one_team: bool) {
    let other_file = |own: &Critical| {
        let elsewhere =
            |x: &&(Critical, Lock)| !std::ptr::eq(x.0.subject, own.subject) && x.0.may_share(own);
        let other = locks.iter().find(elsewhere)?;
        Some(other.0.subject.file.clone())
    };
    let files: Vec<Option<String>> = locks.iter().map(|x| other_file(&x.0)).collect();
    for ((_, lock), file) in locks.iter_mut().zip(files) {
        if let (Lock::CanGo { also_in, .. }, Some(file)) = (&mut *lock, file) {
            match one_team {
                true => *also_in = Some(file),
                false => *lock = Lock::Needed(Reason::OtherFile(file)),
            }
        }
    }
}

/// What is known of the pairs of a critical in one region.
enum Asked {
    /// Two threads can be at these.
    Meet(u8, u8),
    /// Never in a run that finishes.
    Finished,
    /// Never in any run.
    Always,
}

/// The sheet of a team, and the starts of each node.
type Answers = (Vec<u8>, Vec<u64>);

struct Asking<'a> {
    subject: &'a Subject,
    team: Team,
    criticals: Vec<Critical<'a>>,
    /// By the numbers of regions.
    answers: BTreeMap<usize, Answers>,
}

impl Asking<'_> {
    fn lock(&mut self, own: usize) -> Result<Lock, Failure> {
        let own = &self.criticals[own];
        let same = |x: &&Critical| x.name == own.name;
        let nested = |x: &&Critical| x.is_around(own) || own.is_around(x);
        if let Some(other) = self.criticals.iter().filter(same).find(nested) {
            return Ok(Lock::Needed(Reason::Around(other.construct)));
        }
        let regions: Vec<Region> = self.subject.table().chart.regions().collect();
        let mut in_every_run = true;
        // A region has a lower number than those inside it: its own first.
        for region in regions.into_iter().rev().filter(|&x| own.is_in(x)) {
            let team = self.team.in_region(region);
            let told = self.subject.locks(team)?;
            let told = |x: &Critical| told.get(usize::from(x.construct)).copied().flatten();
            let decided = told(own).filter(|&x| x != Told::Needed);
            in_every_run &= decided != Some(Told::DroppableFinished);
            let same = self.criticals.iter().filter(same);
            let open = |x: &&Critical| x.is_in(region) && (decided.is_none() || told(x).is_none());
            match asked(
                self.subject,
                team,
                own.pairs(same.filter(open)),
                &mut self.answers,
            )? {
                Asked::Meet(a, b) => return Ok(Lock::Needed(Reason::Pair(a, b, region))),
                Asked::Finished => in_every_run = false,
                Asked::Always => {}
            }
        }
        Ok(Lock::CanGo {
            in_every_run,
            also_in: None,
        })
    }
}

/// What the library says of these pairs: a list of claims, and what kind of never each is.
fn asked(
    subject: &Subject,
    team: Team,
    pairs: Vec<(u8, u8)>,
    answers: &mut BTreeMap<usize, Answers>,
) -> Result<Asked, Failure> {
    if let Some(&(a, b)) = subject.judge(team, &pairs)?.and_then(|x| pairs.get(x)) {
        return Ok(Asked::Meet(a, b));
    }
    let (sheet, starts) = match answers.entry(team.region.number()) {
        Entry::Occupied(known) => known.into_mut(),
        Entry::Vacant(place) => {
            let phases = subject.phases(team.region)?;
            place.insert((
                subject.sheet(team)?,
                phases.into_iter().map(|x| x.0).collect(),
            ))
        }
    };
    // No common end is about runs that finish; every other never holds in any run.
    let is_by_end = |&(a, b): &(u8, u8)| {
        let (a, b) = (usize::from(a), usize::from(b));
        let answer = sheet[a * subject.nodes() + b];
        answer == Answer::NoCommonPhase as u8 && starts[a] & starts[b] != 0
    };
    Ok(match pairs.iter().any(is_by_end) {
        true => Asked::Finished,
        false => Asked::Always,
    })
}
