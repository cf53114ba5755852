//! `bohrali why`: what shows an answer.

use super::{program_why, Command};
use crate::arguments::{Arguments, Opt, JSON, REGION, SIZE};
use crate::evidence::Evidence;
use crate::json::Json;
use crate::places;
use crate::report::{Failure, Report, Terminal};
use crate::subject::{Subject, Team};
use crate::tables;
use std::ffi::OsStr;
use std::fs;
use witness::{Run, Why};

const ALL: Opt = Opt {
    name: "--all",
    value: None,
    help: "every step of the run, with no part of it folded",
};
const TRACE: Opt = Opt {
    name: "--trace",
    value: Some("OUT"),
    help: "write the run to the file OUT, as a trace for 'bohrali replay'",
};

pub const COMMAND: Command = Command {
    name: "why",
    operands: "FILE|DIR A B",
    count: (3, 3),
    summary: "the answer with its evidence; for a 0 a finished run, a column a thread",
    details: &[
        "A never is told with its rule: the starts and ends of both nodes, or the construct that keeps two
threads apart, and whether it holds in runs that do not finish too. For a 0 a run is built in which
two threads are at the nodes together, the moment marked with >>>>>, and which finishes.",
        "A run is shown only once the proved call bohrali_witnessed has certified it; its texts are tested. Runs
that keep the locks are preferred, of these the shortest found. A team has at most 8 threads.",
        places::HELP,
        "Of several pairs that two threads can be at together the first is shown with its run, the others
are named. With --json two node numbers give an object; where A or B is a source line, a list of them.",
        "Of a DIR, A and B are source lines. The verdict and the status are those of 'ask'; below, under its
name and place, comes each region that decides it. With --json the list has their documents, each with its
table in 'file'; where there is no answer it is empty. --trace writes the first of the runs.",
        tables::HELP,
    ],
    options: &[ALL, TRACE, REGION, SIZE, JSON],
    run,
};

fn run(arguments: &Arguments, terminal: &Terminal) -> Result<Report, Failure> {
    if let Some(directory) = tables::named(arguments)? {
        return program_why::run(directory, arguments, terminal);
    }
    let team = Team::named(arguments)?;
    let subject = Subject::read(&arguments.operands[0])?;
    let asked = places::asked(&subject, team.region, &arguments.operands[1..])?;
    let evidence = Evidence::of(&subject, team)?;
    let all = evidence.all(&asked.pairs)?;
    let text = match arguments.has(&JSON) {
        false => texts(&evidence, &all, arguments, terminal),
        true => {
            let mut documents = all.iter().map(|x| evidence.document(x));
            let document = match asked.by_number {
                true => documents.next().unwrap_or(Json::Null),
                false => Json::List(documents.collect()),
            };
            document.document()
        }
    };
    let notes = traced(arguments, &all)?.into_iter().collect();
    Ok(Report::of(text).with_notes(notes))
}

/// Every pair in words, the first that has a run with it.
pub fn texts(
    evidence: &Evidence,
    all: &[Why],
    arguments: &Arguments,
    terminal: &Terminal,
) -> String {
    let first = all.iter().position(|x| x.run.is_some());
    let texts = all.iter().enumerate().map(|(place, why)| {
        let why = match first == Some(place) {
            true => why.clone(),
            false => Why {
                run: None,
                ..why.clone()
            },
        };
        evidence.text(&why, arguments.has(&ALL), terminal)
    });
    texts.collect::<Vec<_>>().join("\n")
}

/// Writes the first run where a trace is asked for; where there is none, what is said of it.
pub fn traced<'a>(
    arguments: &Arguments,
    all: impl IntoIterator<Item = &'a Why>,
) -> Result<Option<String>, Failure> {
    let run = all.into_iter().find_map(|x| x.run.as_ref());
    let written = arguments.value(&TRACE).map(|out| written(out, run));
    Ok(written.transpose()?.flatten())
}

/// Writes the trace of a run; where there is none, what is said of it.
fn written(out: &OsStr, run: Option<&Run>) -> Result<Option<String>, Failure> {
    let file = out.to_string_lossy();
    let Some(run) = run else {
        return Ok(Some(format!(
            "bohrali: {file} is not written: there is no run"
        )));
    };
    let written = fs::write(out, run.bytes());
    written.map_err(|x| Failure::about(&file, x))?;
    Ok(None)
}
