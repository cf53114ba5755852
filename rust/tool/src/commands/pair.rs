//! `bohrali pair`: the answer for two places.

use super::Command;
use crate::arguments::{Arguments, JSON, REGION, SIZE};
use crate::json::Json;
use crate::places;
use crate::report::{Failure, Report, Terminal};
use crate::subject::{Subject, Team};
use crate::words;

pub const COMMAND: Command = Command {
    name: "pair",
    operands: "FILE A B",
    count: (3, 3),
    summary: "the answer for two places, which may be the same",
    details: &[
        places::HELP,
        "With --json two node numbers give an object; where A or B is a source line, a list of them.",
    ],
    options: &[REGION, SIZE, JSON],
    run,
};

fn run(arguments: &Arguments, terminal: &Terminal) -> Result<Report, Failure> {
    let team = Team::named(arguments)?;
    let subject = Subject::read(&arguments.operands[0])?;
    let asked = places::asked(&subject, team.region, &arguments.operands[1..])?;
    let mut answers = Vec::new();
    for (a, b) in asked.pairs {
        answers.push((a, b, subject.pair(team, a, b)? as u8));
    }
    if !arguments.has(&JSON) {
        let line = |x: &(u8, u8, u8)| line(&subject, terminal, *x);
        return Ok(Report::of(answers.iter().map(line).collect::<String>()));
    }
    let mut documents = answers.iter().map(|x| document(&subject, team, *x));
    let document = match asked.by_number {
        true => documents.next().unwrap_or(Json::Null),
        false => Json::List(documents.collect()),
    };
    Ok(Report::of(document.document()))
}

fn line(subject: &Subject, terminal: &Terminal, (a, b, answer): (u8, u8, u8)) -> String {
    let table = subject.table();
    let number = terminal.paint(words::colour(answer), &answer.to_string());
    format!(
        "{number}  {} and {}: {}\n",
        words::node(table, a),
        words::node(table, b),
        words::answer(answer)
    )
}

fn document(subject: &Subject, team: Team, (a, b, answer): (u8, u8, u8)) -> Json<'_> {
    let mut fields = subject.asked(team);
    fields.extend([("a", a), ("b", b), ("answer", answer)].map(|(key, x)| (key, Json::number(x))));
    Json::Object(fields)
}
