//! `bohrali ask`: the answer for two source places of a whole program.

use super::Command;
use crate::arguments::{Arguments, JSON};
use crate::json::Json;
use crate::report::{Colour, Failure, Report, Terminal, FOUND, GOOD, REFUSED};
use crate::tables;
use crate::words;
use frontend::{Asked, Directory, Finding, Verdict};
use std::path::Path;

pub const COMMAND: Command = Command {
    name: "ask",
    operands: "FILE:LINE FILE:LINE DIR",
    count: (3, 3),
    summary: "the answer for two source places of a program",
    details: &[
        "Never only if every chart with code of both places says so. A file may be named by the end of its path.
The status is 0 for never, 1 where two threads can be there together, 2 where a place has no answer.",
        tables::HELP,
    ],
    options: &[JSON],
    run,
};

fn run(arguments: &Arguments, terminal: &Terminal) -> Result<Report, Failure> {
    let [one, other, path] = [0, 1, 2].map(|x| &arguments.operands[x]);
    let directory = tables::read(Path::new(path))?;
    let words = [one, other].map(|x| x.to_string_lossy());
    let asked = tables::ask(&directory, [&words[0], &words[1]]);
    let asked = asked.map_err(|x| Failure::words(format!("ask: {x}")))?;
    let text = match arguments.has(&JSON) {
        true => document(&asked),
        false => verdict(&directory, &asked, terminal) + &behind(asked.verdict),
    };
    Ok(Report::of(text).with_status(status(asked.verdict)))
}

pub fn status(verdict: Verdict) -> u8 {
    match verdict {
        Verdict::Never => GOOD,
        Verdict::Together => FOUND,
        Verdict::NoAnswer => REFUSED,
    }
}

fn word(verdict: Verdict) -> &'static str {
    match verdict {
        Verdict::Never => "never",
        Verdict::Together => "may meet",
        Verdict::NoAnswer => "no answer",
    }
}

/// The verdict, with what each region says.
pub fn verdict(directory: &Directory, asked: &Asked, terminal: &Terminal) -> String {
    let colour = match asked.verdict {
        Verdict::Never => Colour::Good,
        Verdict::Together => Colour::Warm,
        Verdict::NoAnswer => Colour::Quiet,
    };
    let said = said(directory, asked.findings.iter());
    let lines = said.iter().map(|x| format!("    {x}\n"));
    let word = terminal.paint(colour, word(asked.verdict));
    format!("{word}\n{}", lines.collect::<String>())
}

/// When a verdict is so in the program.
pub fn behind(verdict: Verdict) -> String {
    match verdict {
        Verdict::Never => format!("\n{}", tables::WHEN),
        _ => String::new(),
    }
}

/// What regions say, or that there is none.
pub fn said<'a>(directory: &Directory, findings: impl Iterator<Item = &'a Finding>) -> Vec<String> {
    let said: Vec<String> = findings.map(|x| found(directory, x)).collect();
    match said.is_empty() {
        true => vec!["no region has code of both places".into()],
        false => said,
    }
}

/// What a region says.
fn found(directory: &Directory, finding: &Finding) -> String {
    let held = directory.regions.iter().find(|x| x.name == finding.region);
    let region = held.map_or(String::new(), |x| format!("{}: ", tables::region(x)));
    let rules: Vec<&str> = finding
        .rules
        .iter()
        .map(|&x| words::answer(x as u8))
        .collect();
    match finding.verdict {
        Verdict::NoAnswer => format!("{region}{}", finding.reason),
        Verdict::Together => format!("{region}{}", words::answer(0)),
        Verdict::Never if finding.reason.is_empty() => format!("{region}{}", rules.join("; ")),
        Verdict::Never => format!(
            "{region}{}; as all threads branch alike at {}",
            rules.join("; "),
            finding.reason
        ),
    }
}

fn document(asked: &Asked) -> String {
    let finding = |x: &Finding| {
        Json::Object(vec![
            ("region", Json::text(x.region.clone())),
            ("answer", Json::text(word(x.verdict))),
            ("rules", Json::list(&x.rules, |&x| Json::number(x as u8))),
            ("reason", Json::text(x.reason.clone())),
        ])
    };
    Json::Object(vec![
        ("answer", Json::text(word(asked.verdict))),
        ("regions", Json::list(&asked.findings, finding)),
    ])
    .document()
}
