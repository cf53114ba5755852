//! The data of the page: regions with what the library says of them.

use super::program::{self, Locks};
use super::reading;
use super::source::Source;
use super::{Layers, Program};
use crate::changes::Change;
use crate::commands::replay::Told;
use crate::json::Json;
use crate::report::{Failure, Terminal};
use crate::subject::Subject;
use crate::words;
use bohrali::Answer;
use region::{construct_text, word, NodeKind};

/// The document of all files.
pub fn document<'a>(
    subjects: &'a [Subject],
    source: &mut Source,
    layers: Layers,
    program: Option<&'a Program>,
) -> Result<Json<'a>, Failure> {
    // an old and a new file are no two parts of one program
    let is_program = layers.changes.is_none();
    let locks = Locks::of(subjects, is_program, program)?;
    let mut told = program.map(Program::regions).into_iter().flatten();
    let mut regions = Vec::new();
    for subject in subjects {
        let mut fields = program::named(told.next());
        fields.extend(region(subject, &locks, source)?);
        regions.push(Json::Object(fields));
    }
    let recorded = layers.recorded.as_ref();
    let answers = Answer::ALL.iter().map(|&x| words::answer(x as u8));
    Ok(Json::Object(vec![
        ("answers", Json::list(answers, Json::text)),
        (
            "changes",
            Json::option(layers.changes, |x| Json::list(&x, Change::document)),
        ),
        ("recorded", Json::option(recorded, run)),
        ("races", layers.races.unwrap_or(Json::Null)),
        ("program", Json::option(program, Program::document)),
        ("regions", Json::List(regions)),
    ]))
}

/// A recorded run: what the proved program says of it, and the entries that it allows.
fn run<'a>(told: &Told) -> Json<'a> {
    let verdict = told.verdict("", &Terminal::plain());
    let verdict = verdict.trim_start_matches(": ").trim_end().to_string();
    let (region, size, met) = told.shown();
    let pair = |x: &(u8, u8)| Json::list([x.0, x.1], Json::number);
    Json::Object(vec![
        ("region", Json::Number(region.number())),
        ("words", Json::text(verdict)),
        ("met", Json::list(met, pair)),
        (
            "run",
            Json::List(vec![
                Json::Number(size),
                Json::text(reading::steps(told.legal())),
            ]),
        ),
    ])
}

fn region<'a>(
    subject: &'a Subject,
    locks: &Locks<'a>,
    source: &mut Source,
) -> Result<Vec<(&'static str, Json<'a>)>, Failure> {
    let chart = &subject.table().chart;
    let readings: Result<Vec<Json>, Failure> = chart
        .regions()
        .map(|x| reading::document(subject, x))
        .collect();
    let edges = chart.edges.iter();
    Ok(vec![
        ("file", Json::text(&subject.file)),
        ("nodes", nodes(subject, source)),
        (
            "edges",
            Json::list(edges, |x| Json::list([x.0, x.1], Json::number)),
        ),
        ("constructs", constructs(subject)),
        ("locks", locks.document(subject)),
        ("readings", Json::List(readings?)),
    ])
}

/// Each node by the letter of its kind, its construct, where it is, and the code there.
fn nodes<'a>(subject: &'a Subject, source: &mut Source) -> Json<'a> {
    let table = subject.table();
    let numbered = (0u8..=u8::MAX).zip(&table.chart.nodes);
    Json::list(numbered, |(node, own)| {
        let letter = match own.kind {
            NodeKind::Plain => "p",
            NodeKind::Barrier => "b",
            NodeKind::Begin => "o",
            NodeKind::End => "e",
        };
        let place = table.place(node);
        Json::List(vec![
            Json::text(letter),
            Json::option(own.construct, Json::number),
            Json::text(place),
            Json::text(source.code(place)),
        ])
    })
}

fn constructs(subject: &Subject) -> Json<'_> {
    let table = subject.table();
    let numbered = (0u8..=u8::MAX).zip(&table.chart.constructs);
    Json::list(numbered, |(number, own)| {
        Json::Object(vec![
            ("kind", Json::text(word(own.kind))),
            ("label", Json::text(construct_text(own, &table.names))),
            ("parent", Json::option(own.parent, Json::number)),
            (
                "begin",
                Json::option(table.chart.begin(number), Json::number),
            ),
            ("end", Json::option(table.chart.end(number), Json::number)),
        ])
    })
}
