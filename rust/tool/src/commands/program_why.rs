//! `bohrali why DIR`: what shows the answer for two source places of a program.

use super::{ask, why};
use crate::arguments::{Arguments, JSON};
use crate::evidence::Evidence;
use crate::json::Json;
use crate::places;
use crate::report::{Failure, Report, Terminal};
use crate::subject::{Subject, Team};
use crate::tables;
use frontend::{Asked, Directory, Finding, Held, Verdict};
use witness::Why;

/// A chart that decides the answer, with its pairs of nodes.
struct Chart {
    region: String,
    subject: Subject,
    pairs: Vec<(u8, u8)>,
}

/// What shows the answers of a chart.
struct Shown<'a> {
    region: &'a str,
    evidence: Evidence<'a>,
    all: Vec<Why>,
}

pub fn run(
    directory: Directory,
    arguments: &Arguments,
    terminal: &Terminal,
) -> Result<Report, Failure> {
    let [one, other] = [1, 2].map(|x| arguments.operands[x].to_string_lossy());
    let asked = tables::ask(&directory, [&one, &other]);
    let asked = asked.map_err(|x| Failure::words(format!("why: {x}")))?;
    let verdict = ask::verdict(&directory, &asked, terminal);
    let mut notes = unanswered(&directory, &asked, arguments);
    let charts = deciding(directory, &asked);
    let shown = charts.iter().map(Chart::shown);
    let shown = shown.collect::<Result<Vec<Shown>, Failure>>()?;
    let text = match arguments.has(&JSON) {
        true => documents(&shown),
        false => {
            let each = shown.iter().map(|x| x.text(arguments, terminal));
            verdict + &each.collect::<String>() + &ask::behind(asked.verdict)
        }
    };
    notes.extend(why::traced(arguments, shown.iter().flat_map(|x| &x.all))?);
    let status = ask::status(asked.verdict);
    Ok(Report::of(text).with_notes(notes).with_status(status))
}

/// Why there is no answer, where a list of documents has no room for it.
fn unanswered(directory: &Directory, asked: &Asked, arguments: &Arguments) -> Vec<String> {
    match (asked.verdict, arguments.has(&JSON)) {
        (Verdict::NoAnswer, true) => ask::said(directory, asked.deciding())
            .into_iter()
            .map(|x| format!("bohrali: no answer: {x}"))
            .collect(),
        _ => Vec::new(),
    }
}

/// The charts that decide an answer; where there is none, none does.
fn deciding(directory: Directory, asked: &Asked) -> Vec<Chart> {
    let chart = |held: Held| {
        let finding = asked.deciding().find(|x| x.region == held.name)?;
        let is_answered = finding.verdict != Verdict::NoAnswer;
        is_answered.then_some(Chart {
            region: tables::region(&held),
            subject: tables::subject(&held)?,
            pairs: pairs(finding),
        })
    };
    directory.regions.into_iter().filter_map(chart).collect()
}

fn pairs(finding: &Finding) -> Vec<(u8, u8)> {
    let numbers = |x: &Vec<usize>| -> Vec<u8> {
        let nodes = x.iter().map(|&x| u8::try_from(x));
        nodes.filter_map(Result::ok).collect()
    };
    let [one, other] = &finding.nodes;
    places::pairs(&numbers(one), &numbers(other))
}

impl Chart {
    fn shown(&self) -> Result<Shown<'_>, Failure> {
        let evidence = Evidence::of(&self.subject, Team::default())?;
        Ok(Shown {
            region: &self.region,
            all: evidence.all(&self.pairs)?,
            evidence,
        })
    }
}

impl Shown<'_> {
    fn text(&self, arguments: &Arguments, terminal: &Terminal) -> String {
        let texts = why::texts(&self.evidence, &self.all, arguments, terminal);
        format!("\n{}:\n{texts}", self.region)
    }
}

fn documents(shown: &[Shown]) -> String {
    let each = shown
        .iter()
        .flat_map(|x| x.all.iter().map(|why| x.evidence.document(why)));
    Json::List(each.collect()).document()
}
