//! `bohrali judge`: whether claims hold.

use super::{ask, Command};
use crate::arguments::{Arguments, JSON, REGION, SIZE, WHY};
use crate::evidence::Evidence;
use crate::json::Json;
use crate::lines::{self, Line};
use crate::places::{self, Places};
use crate::report::{Failure, Report, Terminal, FOUND, GOOD};
use crate::subject::{self, Subject, Team};
use crate::tables;
use crate::words::{self, count};
use frontend::{Directory, Verdict};
use region::load::MOST_BYTES;
use region::quoted;

pub const COMMAND: Command = Command {
    name: "judge",
    operands: "FILE|DIR CLAIMS",
    count: (2, 2),
    summary: "whether all claims of a list hold, or the first that does not",
    details: &[
        "CLAIMS is a text with a line for each claim, 'never PLACE PLACE': no run that finishes has two
threads at the two places together. '#' begins a comment. A place that has no node is an error.",
        places::HELP,
        tables::HELP,
    ],
    options: &[WHY, REGION, SIZE, JSON],
    run,
};

/// A claim with the pairs of nodes that it is about.
struct Claim<'a> {
    line: usize,
    text: &'a str,
    pairs: Vec<(u8, u8)>,
}

/// One pair of a claim.
type Asked<'a> = (&'a Claim<'a>, (u8, u8));

fn run(arguments: &Arguments, terminal: &Terminal) -> Result<Report, Failure> {
    if let Some(directory) = tables::named(arguments)? {
        return judge_program(&directory, arguments);
    }
    let team = Team::named(arguments)?;
    let subject = Subject::read(&arguments.operands[0])?;
    let places = Places::of(&subject, team.region)?;
    let file = arguments.operands[1].to_string_lossy();
    let bytes = subject::bytes(&arguments.operands[1], MOST_BYTES)?;
    let lines = lines::of(&file, &bytes)?;
    let claims = lines::each(&file, &lines, |line| claim(&places, line))?;
    let asked: Vec<Asked> = claims
        .iter()
        .flat_map(|claim| claim.pairs.iter().map(move |&pair| (claim, pair)))
        .collect();
    let pairs: Vec<(u8, u8)> = asked.iter().map(|x| x.1).collect();
    let failed = subject
        .judge(team, &pairs)?
        .and_then(|index| asked.get(index));
    let evidence = Evidence::of(&subject, team)?;
    let wanted = failed.filter(|_| arguments.has(&WHY));
    let why = wanted.map(|x| evidence.why(x.1 .0, x.1 .1));
    let why = why.transpose()?;
    let text = match (arguments.has(&JSON), failed) {
        (true, _) => document(&subject, failed, why.as_ref().map(|x| evidence.document(x))),
        (false, Some(failed)) => {
            let text = why.as_ref().map(|x| evidence.text(x, false, terminal));
            let text = text.map_or(String::new(), |x| format!("\n{x}"));
            fails(&subject, &file, failed) + &text
        }
        (false, None) => held(&subject.file, claims.len(), pairs.len()),
    };
    Ok(Report::of(text).with_status(match failed {
        Some(_) => FOUND,
        None => GOOD,
    }))
}

/// The two words of a claim.
fn claimed<'a>(line: &Line<'a>) -> Result<[&'a str; 2], String> {
    let words: Vec<&str> = line.text.split_whitespace().collect();
    let [word, one, other] = words[..] else {
        return Err(format!(
            "{} found, 'never PLACE PLACE' expected",
            quoted(line.text)
        ));
    };
    match word {
        "never" => Ok([one, other]),
        _ => Err(format!("{} found, 'never' expected", quoted(word))),
    }
}

fn claim<'a>(places: &Places, line: &Line<'a>) -> Result<Claim<'a>, String> {
    let [one, other] = claimed(line)?;
    Ok(Claim {
        line: line.number,
        text: line.text,
        pairs: places::pairs(&places.nodes(one)?, &places.nodes(other)?),
    })
}

/// Claims about the source places of a program: all are asked, and one without an answer is an error.
fn judge_program(directory: &Directory, arguments: &Arguments) -> Result<Report, Failure> {
    let file = arguments.operands[1].to_string_lossy();
    let bytes = subject::bytes(&arguments.operands[1], MOST_BYTES)?;
    let lines = lines::of(&file, &bytes)?;
    let asked = lines::each(&file, &lines, |line| {
        let asked = tables::ask(directory, claimed(line)?)?;
        let why = ask::said(directory, asked.deciding().take(1)).concat();
        match asked.verdict {
            Verdict::NoAnswer => Err(format!("'{}' has no answer: {why}", line.text)),
            Verdict::Never => Ok(None),
            Verdict::Together => Ok(Some((line.number, line.text, why))),
        }
    })?;
    let failed = asked.iter().flatten().next();
    let text = match (arguments.has(&JSON), failed) {
        (true, _) => program_document(&arguments.operands[0].to_string_lossy(), failed),
        (false, Some((line, claim, why))) => {
            format!("{file}: line {line}: '{claim}' does not hold\n    {why}\n")
        }
        (false, None) => format!(
            "{file}: {} hold\n\n{}",
            count(asked.len(), "claim"),
            tables::WHEN
        ),
    };
    Ok(Report::of(text).with_status(match failed {
        Some(_) => FOUND,
        None => GOOD,
    }))
}

fn program_document(folder: &str, failed: Option<&(usize, &str, String)>) -> String {
    let mut fields = vec![
        ("file", Json::text(folder)),
        ("holds", Json::Bool(failed.is_none())),
    ];
    if let Some((line, claim, why)) = failed {
        fields.push(("line", Json::Number(*line)));
        fields.push(("claim", Json::text(*claim)));
        fields.push(("reason", Json::text(why)));
    }
    Json::Object(fields).document()
}

fn held(file: &str, claims: usize, pairs: usize) -> String {
    let about = count(pairs, "pair");
    match claims {
        0 => format!("{file}: there are no claims\n"),
        1 => format!("{file}: the claim holds, about {about} of nodes\n"),
        _ => format!("{file}: all {claims} claims hold, about {about} of nodes\n"),
    }
}

fn fails(subject: &Subject, file: &str, (claim, (a, b)): &Asked) -> String {
    format!(
        "{file}: line {}: '{}' does not hold\n{}: {}, in a run that finishes\n",
        claim.line,
        claim.text,
        subject.file,
        words::together(subject.table(), *a, *b)
    )
}

fn document(subject: &Subject, failed: Option<&Asked>, why: Option<Json>) -> String {
    let mut fields = vec![
        ("file", Json::text(&subject.file)),
        ("holds", Json::Bool(failed.is_none())),
    ];
    if let Some((claim, (a, b))) = failed {
        fields.push(("line", Json::Number(claim.line)));
        fields.push(("claim", Json::text(claim.text)));
        fields.push(("a", Json::number(*a)));
        fields.push(("b", Json::number(*b)));
    }
    fields.extend(why.map(|x| ("why", x)));
    Json::Object(fields).document()
}
