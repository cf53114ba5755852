//! Places as people write them: node numbers, and source lines wherever a number may stand.

use crate::report::Failure;
use crate::subject::Subject;
use bohrali::layout::DISTANCE_AT_BARRIER;
use bohrali::Region;
use region::{quoted, Place};
use std::ffi::OsString;

/// What is said of places in each help.
pub const HELP: &str = "A place is a node number, or source lines as file.c:12 or file.c:12-15, which the column
    'where' of a region table has. Source lines name every node that is there, barriers aside; then all of them are asked about.";

/// The nodes that can be named in a region: those that have answers, which are no barriers.
pub struct Places<'a> {
    subject: &'a Subject,
    answered: Vec<bool>,
}

impl Places<'_> {
    /// A node has a distance exactly where it has answers.
    pub fn of(subject: &Subject, region: Region) -> Result<Places<'_>, Failure> {
        let distances = subject.distances(region)?;
        Ok(Places {
            subject,
            answered: distances
                .iter()
                .map(|&x| x != DISTANCE_AT_BARRIER)
                .collect(),
        })
    }

    /// The nodes that a word names, of source lines those that have answers.
    pub fn nodes(&self, word: &str) -> Result<Vec<u8>, String> {
        let found = quoted(word);
        let place = Place::read(word).ok_or_else(|| {
            format!("{found} found, a node number or a source line, as file.c:12, expected")
        })?;
        let named = place.nodes(self.subject.table());
        let open: Vec<u8> = named
            .iter()
            .filter(|&&x| self.answered.get(x) == Some(&true))
            .filter_map(|&x| u8::try_from(x).ok())
            .collect();
        match (&place, open.is_empty()) {
            (_, false) => Ok(open),
            (Place::Node(node), _) if *node >= self.answered.len() => Err(format!(
                "there is no node {node}: the last is {}",
                self.answered.len().saturating_sub(1)
            )),
            (Place::Node(node), _) => Err(format!(
                "node {node} is a barrier of the region or lies outside it, and has no answers"
            )),
            (Place::Source(_), _) if named.is_empty() => Err(format!("no node is at {found}")),
            (Place::Source(_), _) => Err(format!(
                "at {found} are only barriers of the region or nodes outside it, which have no answers"
            )),
        }
    }
}

/// What two places of a command line ask about.
pub struct Asked {
    pub pairs: Vec<(u8, u8)>,
    /// Whether both are node numbers: then there is just one pair.
    pub by_number: bool,
}

/// The pairs that two words name in a region.
pub fn asked(subject: &Subject, region: Region, words: &[OsString]) -> Result<Asked, Failure> {
    let places = Places::of(subject, region)?;
    let words: Vec<_> = words.iter().map(|x| x.to_string_lossy()).collect();
    let nodes = |word: &str| {
        places
            .nodes(word)
            .map_err(|x| Failure::about(&subject.file, x))
    };
    Ok(Asked {
        pairs: pairs(&nodes(&words[0])?, &nodes(&words[1])?),
        by_number: words.iter().all(|x| is_number(x)),
    })
}

/// Whether a word is a node number, which names one node whatever the file says.
fn is_number(word: &str) -> bool {
    matches!(Place::read(word), Some(Place::Node(_)))
}

/// Each pair of a node of the one and a node of the other, once.
pub fn pairs(one: &[u8], other: &[u8]) -> Vec<(u8, u8)> {
    let mut pairs: Vec<(u8, u8)> = Vec::new();
    for &a in one {
        for &b in other {
            let pair = if other.contains(&a) && one.contains(&b) {
                (a.min(b), a.max(b))
            } else {
                (a, b)
            };
            if !pairs.contains(&pair) {
                pairs.push(pair);
            }
        }
    }
    pairs
}
