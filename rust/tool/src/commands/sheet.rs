//! `bohrali sheet`: tab eleven, the answers of all pairs.

use super::Command;
use crate::arguments::{Arguments, Opt, JSON, REGION, SIZE};
use crate::json::Json;
use crate::report::{Failure, Report, Terminal};
use crate::subject::{Subject, Team};
use crate::words;
use bohrali::Answer;

const CSV: Opt = Opt {
    name: "--csv",
    value: None,
    help: "the sheet for a spreadsheet; a cell is empty where there is no answer",
};

pub const COMMAND: Command = Command {
    name: "sheet",
    operands: "FILE",
    count: (1, 1),
    summary: "tab eleven: the answer of every two nodes of a region",
    details: &[
        "A row and a column for each node that is no barrier and in the region. 0 says that two threads can be
there together, in a run that finishes; any other number is the rule by which they never are.",
    ],
    options: &[REGION, SIZE, CSV, JSON],
    run,
};

fn run(arguments: &Arguments, terminal: &Terminal) -> Result<Report, Failure> {
    let team = Team::named(arguments)?;
    let subject = Subject::read(&arguments.operands[0])?;
    let sheet = subject.sheet(team)?;
    let rows: Vec<&[u8]> = sheet.chunks(subject.nodes()).collect();
    Ok(Report::of(if arguments.has(&JSON) {
        let mut fields = subject.asked(team);
        fields.push(("nodes", Json::Number(subject.nodes())));
        let row = |row: &[u8]| Json::list(row, |&x| Json::number(x));
        fields.push(("answers", Json::list(rows, row)));
        Json::Object(fields).document()
    } else if arguments.has(&CSV) {
        csv(&rows)
    } else {
        text(&subject, team, &rows, terminal)
    }))
}

fn csv(rows: &[&[u8]]) -> String {
    let numbers: Vec<String> = (0..rows.len()).map(|x| x.to_string()).collect();
    let mut text = format!("node,{}\n", numbers.join(","));
    for (node, row) in rows.iter().enumerate() {
        let cell = |&x: &u8| match x {
            Answer::AT_BARRIER => String::new(),
            answer => answer.to_string(),
        };
        let cells: Vec<String> = row.iter().map(cell).collect();
        text += &format!("{node},{}\n", cells.join(","));
    }
    text
}

fn text(subject: &Subject, team: Team, rows: &[&[u8]], terminal: &Terminal) -> String {
    let table = subject.table();
    let answered = |&x: &usize| rows[x][x] != Answer::AT_BARRIER;
    let nodes: Vec<usize> = (0..rows.len()).filter(answered).collect();
    let mut text = format!("{}: {}\n\n", subject.file, subject.team_words(team));
    for line in numbers(&nodes) {
        text += &format!("      {line}\n");
    }
    for &node in &nodes {
        let cells: String = nodes
            .iter()
            .map(|&x| cell(rows[node][x], terminal))
            .collect();
        let label = u8::try_from(node).unwrap_or(u8::MAX);
        let (kind, place) = (table.kind(label), table.place(label));
        let line = format!("{node:>5} {cells}  {kind:<16} {place}");
        text += &format!("{}\n", line.trim_end());
    }
    text += "\n";
    for answer in 0..Answer::ALL.len() as u8 {
        if nodes
            .iter()
            .any(|&x| nodes.iter().any(|&y| rows[x][y] == answer))
        {
            text += &format!("{:>5}  {}\n", cell(answer, terminal), words::answer(answer));
        }
    }
    text
}

fn cell(answer: u8, terminal: &Terminal) -> String {
    terminal.paint(words::colour(answer), &answer.to_string())
}

/// The numbers of the columns, written downwards.
fn numbers(nodes: &[usize]) -> Vec<String> {
    let places = nodes.last().map_or(1, |x| x.to_string().len());
    let digit = |node: usize, place: u32| match node / 10_usize.pow(place) {
        0 if place > 0 => ' ',
        high => char::from(b'0' + (high % 10) as u8),
    };
    let line = |place| nodes.iter().map(|&x| digit(x, place)).collect::<String>();
    let lines = (0..places as u32).rev().map(line);
    lines.map(|x| x.trim_end().to_string()).collect()
}
