//! Two source places of a program: never only if every chart that holds both says so. Two threads of any two
//! teams descend from two threads of the innermost team above both, and the chart of that team's region has
//! the code of the regions inside it; so the charts speak of all of them.

use crate::directory::{Directory, Held};
use crate::notes::{Key, Note};
use crate::statement::{is_fortran, statement};
use bohrali::{Answer, Region};
use region::{Lines, NodeKind, Place};
use std::collections::BTreeSet;

#[derive(Clone, Copy, Debug, PartialEq, Eq)]
pub enum Verdict {
    Never,
    Together,
    NoAnswer,
}

/// What one region says.
#[derive(Clone, Debug, PartialEq, Eq)]
pub struct Finding {
    /// The region's name in the directory; empty where the places themselves have no answer.
    pub region: String,
    pub verdict: Verdict,
    /// The nodes with code of each place; none where there is no answer.
    pub nodes: [Vec<usize>; 2],
    /// The rules of a never.
    pub rules: Vec<Answer>,
    /// Why there is no answer; or the branches that all threads have to take alike, if a never rests on them.
    pub reason: String,
}

#[derive(Clone, Debug, PartialEq, Eq)]
pub struct Asked {
    pub verdict: Verdict,
    /// Of each region with code of both places.
    pub findings: Vec<Finding>,
}

/// The answer for two places. `source` gives the text of a source file, which Fortran's statements are told
/// from.
pub fn ask(
    directory: &Directory,
    places: [&Lines; 2],
    source: &dyn Fn(&str) -> Option<String>,
) -> Asked {
    let mut whole = Vec::new();
    for place in places {
        match whole_statements(directory, place, source) {
            Ok(lines) => whole.push(lines),
            Err(reason) => return Asked::without(reason),
        }
    }
    let [one, other] = [&whole[0], &whole[1]];
    let findings: Vec<Finding> = directory
        .regions
        .iter()
        .filter_map(|x| finding(x, [one, other]))
        .collect();
    let is_any = |verdict: Verdict| findings.iter().any(|x| x.verdict == verdict);
    let verdict = if findings.is_empty() || is_any(Verdict::NoAnswer) {
        Verdict::NoAnswer
    } else if is_any(Verdict::Together) {
        Verdict::Together
    } else {
        Verdict::Never
    };
    Asked { verdict, findings }
}

impl Asked {
    fn without(reason: String) -> Asked {
        Asked {
            verdict: Verdict::NoAnswer,
            findings: vec![Finding::without("", reason)],
        }
    }

    /// The findings that make the verdict what it is.
    pub fn deciding(&self) -> impl Iterator<Item = &Finding> {
        let findings = self.findings.iter();
        findings.filter(|x| x.verdict == self.verdict)
    }
}

impl Finding {
    fn without(region: &str, reason: String) -> Finding {
        Finding {
            region: region.into(),
            verdict: Verdict::NoAnswer,
            nodes: [Vec::new(), Vec::new()],
            rules: Vec::new(),
            reason,
        }
    }
}

/// A path as flows and tables have it.
fn escaped(path: &str) -> String {
    let mut text = String::new();
    for byte in path.bytes() {
        if byte.is_ascii_alphanumeric() || b"_-+./@~#=*".contains(&byte) {
            text.push(byte.into());
        } else {
            text += &format!("%{byte:02X}");
        }
    }
    text
}

/// The path that was escaped so.
fn unescaped(text: &str) -> String {
    let mut bytes = Vec::new();
    let mut rest = text.as_bytes();
    while let [first, behind @ ..] = rest {
        let digits = behind.get(..2).filter(|_| *first == b'%');
        let hex = digits.and_then(|x| u8::from_str_radix(std::str::from_utf8(x).ok()?, 16).ok());
        bytes.push(hex.unwrap_or(*first));
        rest = if hex.is_some() { &behind[2..] } else { behind };
    }
    String::from_utf8_lossy(&bytes).into_owned()
}

/// Whether two paths may be one file: the end of one is the other.
fn may_be_one(one: &str, other: &str) -> bool {
    let [one, other] = [one, other].map(|x| x.trim_start_matches("./"));
    let ends = |long: &str, short: &str| long.strip_suffix(short).is_some_and(|x| x.ends_with('/'));
    one == other || ends(one, other) || ends(other, one)
}

/// The lines of the statements at a place, in each file of the directory that it may be.
fn whole_statements(
    directory: &Directory,
    place: &Lines,
    source: &dyn Fn(&str) -> Option<String>,
) -> Result<Vec<Lines>, String> {
    let asked = escaped(&place.file);
    let files = files(directory).into_iter();
    let statement_in = |file: String| {
        let lines = Lines {
            file,
            ..place.clone()
        };
        if !is_fortran(&lines.file) {
            return Ok(lines);
        }
        let path = unescaped(&lines.file);
        let text = source(&path).ok_or_else(|| {
            format!("the lines of a Fortran statement are told from its source, and {path} cannot be read")
        })?;
        statement(&lines, &text).map_err(|why| format!("{path}:{} is {why}", place.first))
    };
    files
        .filter(|x| may_be_one(x, &asked))
        .map(statement_in)
        .collect()
}

/// The source files that the tables and their notes name.
fn files(directory: &Directory) -> BTreeSet<String> {
    let tables = directory.regions.iter().filter_map(|x| x.loaded.as_ref());
    let cells = tables.flat_map(|x| x.table.places.iter());
    let notes = directory
        .regions
        .iter()
        .flat_map(|x| x.notes.of(Key::NoAnswer));
    let texts = cells.chain(notes.map(|x| &x.subject));
    texts
        .flat_map(|x| Lines::in_cell(x))
        .map(|x| x.file)
        .collect()
}

/// What a region says of two places; none where it has no code of one of them.
fn finding(held: &Held, places: [&Vec<Lines>; 2]) -> Option<Finding> {
    let unanswered = places.map(|x| unanswered(held, x));
    let nodes = places.map(|x| code_at(held, x));
    let has = |x: usize| unanswered[x].is_some() || !nodes[x].is_empty();
    if !has(0) || !has(1) {
        return None;
    }
    let without = |reason: String| Finding::without(&held.name, reason);
    if let Some(note) = unanswered.into_iter().flatten().next() {
        return Some(without(format!("{} is {}", note.subject, note.reason)));
    }
    if let Some(note) = held.notes.of(Key::SeveralTeams).next() {
        return Some(without(format!(
            "several teams may run the region at a time, by the {} {}",
            note.subject, note.reason
        )));
    }
    let rules = match answers(held, &nodes) {
        Ok(rules) => rules,
        Err(reason) => return Some(without(reason)),
    };
    let is_never = !rules.contains(&Answer::Concurrent);
    let rests_on_phases = is_never && rules.contains(&Answer::NoCommonPhase);
    let alike: Vec<&str> = held
        .notes
        .of(Key::BranchAlike)
        .map(|x| x.subject.as_str())
        .collect();
    Some(Finding {
        region: held.name.clone(),
        verdict: if is_never {
            Verdict::Never
        } else {
            Verdict::Together
        },
        nodes,
        rules,
        reason: if rests_on_phases {
            alike.join(", ")
        } else {
            String::new()
        },
    })
}

/// The note by which some of these lines has no answer.
fn unanswered<'a>(held: &'a Held, lines: &[Lines]) -> Option<&'a Note> {
    let names = |note: &Note| {
        Lines::read(&note.subject).is_some_and(|x| lines.iter().any(|y| y.shares(&x)))
    };
    held.notes.of(Key::NoAnswer).find(|x| names(x))
}

/// The nodes with code of these lines; begins, ends and barriers have none.
fn code_at(held: &Held, lines: &[Lines]) -> Vec<usize> {
    let Some(loaded) = &held.loaded else {
        return Vec::new();
    };
    let is_plain = |x: &usize| {
        let node = loaded.table.chart.nodes.get(*x);
        node.is_some_and(|x| x.kind == NodeKind::Plain)
    };
    let named = lines
        .iter()
        .flat_map(|x| Place::Source(x.clone()).nodes(&loaded.table));
    named.filter(is_plain).collect()
}

/// The answers of all pairs, each once.
fn answers(held: &Held, nodes: &[Vec<usize>; 2]) -> Result<Vec<Answer>, String> {
    let Some(loaded) = &held.loaded else {
        return Err("the region has no chart".into());
    };
    let width = loaded.counts.nodes;
    let mut sheet = vec![0; width * width];
    bohrali::sheet(&loaded.bytes, Region::Outermost, &mut sheet)
        .map_err(|x| format!("the library refuses: {x}"))?;
    let each = nodes[0].iter();
    let pairs = each.flat_map(|a| nodes[1].iter().map(move |b| a * width + b));
    let found: BTreeSet<u8> = pairs.filter_map(|x| sheet.get(x).copied()).collect();
    let answer = |x: u8| Answer::ALL.get(usize::from(x)).copied();
    Ok(found.into_iter().filter_map(answer).collect())
}
