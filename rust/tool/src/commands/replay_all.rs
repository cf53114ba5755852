//! `bohrali replay` of a directory of traces: what becomes of each, and of all.

use super::replay::Told;
use crate::program::Verdict;
use crate::report::{Failure, Report, Terminal, FOUND, GOOD};
use crate::subject::{Subject, Team};
use crate::tables;
use crate::words::{self, count};
use bohrali::Size;
use frontend::traces::{self, Listed};
use frontend::{Key, Notes};
use std::collections::{BTreeMap, BTreeSet};
use std::path::Path;

/// What is counted over all traces.
#[derive(Default)]
struct Counts {
    verdicts: BTreeMap<&'static str, usize>,
    entries: usize,
    /// Table, size of the team, and two nodes that two threads were at together.
    met: BTreeSet<(usize, usize, u8, u8)>,
    /// Those of them that are answered never.
    never: BTreeSet<(usize, usize, u8, u8)>,
}

/// The report on all traces of a directory.
pub fn run(
    path: &Path,
    is_json: bool,
    is_strict: bool,
    terminal: &Terminal,
) -> Result<Report, Failure> {
    let (listed, notes) = traces::listed(path).map_err(|x| tables::failure(vec![x]))?;
    let subjects = read_tables(&listed)?;
    let numbers: Vec<&Path> = subjects.keys().copied().collect();
    let mut counts = Counts::default();
    let mut texts = Vec::new();
    for trace in &listed {
        let table = numbers.iter().position(|x| *x == trace.table.as_path());
        let (Some(table), Some(subject)) = (table, subjects.get(trace.table.as_path())) else {
            continue;
        };
        let told = Told::of(subject, Team::default(), trace.trace.as_os_str())?;
        counts.add(table, &told)?;
        let name = trace.trace.display().to_string();
        match is_json {
            true => texts.push(told.document().trim_end().to_string()),
            false if told.outcome() != Verdict::Finished => {
                texts.push(told.verdict(&name, terminal) + &cut(&notes, trace));
            }
            false => {}
        }
    }
    let is_good = counts.is_good(&notes, &listed);
    let text = match is_json {
        true => format!("[{}]\n", texts.join(",\n")),
        false => texts.concat() + &counts.text(path, &notes),
    };
    let status = if is_strict && !is_good { FOUND } else { GOOD };
    Ok(Report::of(text).with_status(status))
}

fn read_tables(listed: &[Listed]) -> Result<BTreeMap<&Path, Subject>, Failure> {
    let mut subjects = BTreeMap::new();
    for trace in listed {
        if !subjects.contains_key(trace.table.as_path()) {
            let subject = Subject::read(trace.table.as_os_str())?;
            subjects.insert(trace.table.as_path(), subject);
        }
    }
    Ok(subjects)
}

/// Why a trace is not all of its instance.
fn cut(notes: &Notes, trace: &Listed) -> String {
    let own = notes.of(Key::Cut).find(|x| x.subject == trace.name);
    own.map_or(String::new(), |x| format!("it is cut: {}\n", x.reason))
}

impl Counts {
    fn add(&mut self, table: usize, told: &Told) -> Result<(), Failure> {
        *self.verdicts.entry(told.word()).or_default() += 1;
        let (region, threads, met) = told.shown();
        self.entries += told.entries();
        let sheet = told.subject().sheet(Team {
            region,
            size: Some(Size(threads)),
        })?;
        let nodes = told.subject().nodes();
        for &(a, b) in met {
            let answer = sheet.get(usize::from(a) * nodes + usize::from(b));
            let Some(&answer) = answer.filter(|&&x| x != u8::MAX) else {
                continue;
            };
            self.met.insert((table, threads, a, b));
            // A never may be one of runs that finish alone.
            if words::is_never(answer) && told.outcome() == Verdict::Finished {
                self.never.insert((table, threads, a, b));
            }
        }
        Ok(())
    }

    fn of(&self, word: &str) -> usize {
        self.verdicts.get(word).copied().unwrap_or(0)
    }

    /// Whether all are finished, but for those that are cut, whose beginning is legal.
    fn is_good(&self, notes: &Notes, listed: &[Listed]) -> bool {
        let cut = notes.of(Key::Cut).count();
        let whole = listed.len().saturating_sub(cut);
        self.of("forbidden") == 0 && self.of("finished") >= whole && self.never.is_empty()
    }

    fn text(&self, path: &Path, notes: &Notes) -> String {
        let traces: usize = self.verdicts.values().sum();
        let verdicts = ["finished", "unfinished", "forbidden"];
        let verdicts = verdicts.map(|x| format!("{} {x}", self.of(x)));
        let cut = notes.of(Key::Cut).count();
        let mut text = format!(
            "{}: {}, {}: {}; {cut} are cut\n",
            path.display(),
            count(traces, "trace"),
            count(self.entries, "entry"),
            verdicts.join(", ")
        );
        text += &format!(
            "two threads were together at {} of nodes, for each region and size of team, of which {} answered never\n",
            count(self.met.len(), "pair"),
            match self.never.len() {
                0 => "none is".into(),
                never => format!("{never} are"),
            }
        );
        text
    }
}
