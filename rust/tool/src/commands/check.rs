//! `bohrali check`: whether files hold regions that are admitted.

use super::Command;
use crate::arguments::{Arguments, JSON};
use crate::json::Json;
use crate::report::{Failure, Report, Terminal, GOOD, REFUSED};
use crate::subject::{self, Subject};
use crate::words::count;
use region::{ConstructKind, Form, Problem, Wrong};

pub const COMMAND: Command = Command {
    name: "check",
    operands: "FILE..",
    count: (1, usize::MAX),
    summary: "whether each file is admitted, with counts, or what is wrong with it",
    details: &[
        "Of a region table all that is wrong in one stage is told, by row and column. Barriers and phases are
those of the outermost region.",
        "With --json one file gives an object and several a list of them. 'refused' is the number of the
library's refusal, and null where the text makes no chart to hand over.",
    ],
    options: &[JSON],
    run,
};

fn run(arguments: &Arguments, _: &Terminal) -> Result<Report, Failure> {
    let files = arguments.operands.iter();
    let checked: Vec<_> = files
        .map(|x| (x.to_string_lossy(), subject::load(x)))
        .collect();
    let report = match arguments.has(&JSON) {
        false => {
            let told = checked.iter().filter_map(|x| x.1.as_ref().ok());
            let wrong = checked
                .iter()
                .filter_map(|x| Some((&x.0, x.1.as_ref().err()?)));
            let notes = wrong.map(|(file, wrong)| refused(file, wrong)).collect();
            Report::of(told.map(admitted).collect::<String>()).with_notes(notes)
        }
        true => {
            let each = checked.iter().map(|x| document(&x.0, x.1.as_ref()));
            let mut documents: Vec<Json> = each.collect();
            Report::of(match documents.len() {
                1 => documents.remove(0).document(),
                _ => Json::List(documents).document(),
            })
        }
    };
    Ok(
        report.with_status(match checked.iter().all(|x| x.1.is_ok()) {
            true => GOOD,
            false => REFUSED,
        }),
    )
}

fn admitted(subject: &Subject) -> String {
    let chart = &subject.table().chart;
    let form = match subject.loaded.form {
        Form::Table => "region table",
        Form::Chart => "chart",
        Form::Listing => "listing",
    };
    let counts = subject.loaded.counts;
    let inner = match chart.constructs_of(ConstructKind::Parallel).count() {
        0 => String::new(),
        inner => format!(", {} inside", count(inner, "region")),
    };
    format!(
        "{}: {form}, admitted: {}, {}, {}, {}{inner}\n",
        subject.file,
        count(counts.nodes, "node"),
        count(counts.barriers, "barrier"),
        count(counts.phases, "phase"),
        count(chart.constructs.len(), "construct"),
    )
}

/// What is wrong, each line behind the file's name; with the library's words where a row is named and it
/// refuses the chart.
fn refused(file: &str, wrong: &Wrong) -> String {
    let is_placed = wrong.problems.iter().all(|x| x.row.is_some());
    let number = wrong.refusal.filter(|_| is_placed).map(|x| x.to_string());
    let text = wrong.to_string();
    let lines = text.lines().chain(number.as_deref());
    lines
        .map(|x| format!("{file}: {x}"))
        .collect::<Vec<_>>()
        .join("\n")
}

fn document<'a>(file: &'a str, loaded: Result<&Subject, &'a Wrong>) -> Json<'a> {
    let mut fields = vec![
        ("file", Json::text(file)),
        ("admitted", Json::Bool(loaded.is_ok())),
    ];
    match loaded {
        Ok(subject) => {
            let counts = subject.loaded.counts;
            fields.push(("nodes", Json::Number(counts.nodes)));
            fields.push(("barriers", Json::Number(counts.barriers)));
            fields.push(("phases", Json::Number(counts.phases)));
        }
        Err(wrong) => {
            let number = Json::option(wrong.refusal, |x| Json::number(x.number()));
            fields.push(("refused", number));
            fields.push(("errors", Json::list(&wrong.problems, error)));
        }
    }
    Json::Object(fields)
}

fn error(problem: &Problem) -> Json<'_> {
    Json::Object(vec![
        ("row", Json::option(problem.row, Json::Number)),
        (
            "column",
            Json::option(problem.column.as_deref(), Json::text),
        ),
        ("message", Json::text(&problem.message)),
    ])
}
