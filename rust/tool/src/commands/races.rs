//! `bohrali races`: which accesses to variables race.

use super::Command;
use crate::arguments::{Arguments, Opt, JSON, REGION};
use crate::json::Json;
use crate::lines::{self, Line};
use crate::places::{self, Places};
use crate::report::{Colour, Failure, Report, Terminal, FOUND, GOOD};
use crate::subject::{self, Subject, Team};
use crate::words::{self, count};
use bohrali::limits::MOST_ACCESSES;
use bohrali::{Access, AccessKind, Race, Region};
use region::load::MOST_BYTES;
use region::quoted;
use std::borrow::Cow;
use std::collections::HashMap;
use std::ffi::OsStr;
use std::fmt::Write;

const STRICT: Opt = Opt {
    name: "--strict",
    value: None,
    help: "status 1 where there is a possible data race",
};

pub const COMMAND: Command = Command {
    name: "races",
    operands: "FILE ACCESSES",
    count: (2, 2),
    summary: "pairs of accesses to variables that race",
    details: &[
        "ACCESSES is a text with a line for each access, 'read PLACE VARIABLE' or 'write PLACE VARIABLE', a
variable one word. '#' begins a comment. A data race is possible where two threads can be at the two
accesses together, one of them writes, and no critical of one name is around both; where one is, it is a
synchronization race, and the lock keeps them apart. An access races with itself where two threads can
make it together.",
        places::HELP,
    ],
    options: &[REGION, STRICT, JSON],
    run,
};

/// An access of a line, at one of the nodes of its place.
struct Made<'a> {
    line: usize,
    node: u8,
    kind: AccessKind,
    variable: &'a str,
    /// All this as text.
    text: String,
}

/// Two accesses that race.
struct Found<'a> {
    race: Race,
    pair: [&'a Made<'a>; 2],
}

fn run(arguments: &Arguments, terminal: &Terminal) -> Result<Report, Failure> {
    let region = Team::named(arguments)?.region;
    let subject = Subject::read(&arguments.operands[0])?;
    let strict = arguments.has(&STRICT);
    told(&subject, region, &arguments.operands[1], |made, found| {
        let text = match arguments.has(&JSON) {
            true => document(&subject, region.number(), found),
            false => text(&subject, made, found, terminal),
        };
        let is_data = found.iter().any(|x| x.race == Race::Data);
        Report::of(text).with_status(match is_data && strict {
            true => FOUND,
            false => GOOD,
        })
    })
}

/// The races of the accesses in a file, for the page.
pub fn layer(subject: &Subject, region: Region, file: &OsStr) -> Result<Json<'static>, Failure> {
    let races = told(subject, region, file, |_, found| {
        Json::list(found, |x| race_fields(x, x.pair[0].variable.to_string()))
    })?;
    Ok(Json::Object(vec![
        ("region", Json::Number(region.number())),
        ("found", races),
    ]))
}

/// What becomes of the number of accesses in a file, and of those that race.
fn told<T>(
    subject: &Subject,
    region: Region,
    file: &OsStr,
    tell: impl FnOnce(usize, &[Found]) -> T,
) -> Result<T, Failure> {
    let places = Places::of(subject, region)?;
    let bytes = subject::bytes(file, MOST_BYTES)?;
    let file = file.to_string_lossy();
    let lines = lines::of(&file, &bytes)?;
    let made = lines::each(&file, &lines, |line| accesses(subject, &places, line))?;
    let made: Vec<Made> = made.into_iter().flatten().collect();
    if made.len() > MOST_ACCESSES {
        let message = format!("{} accesses, and {MOST_ACCESSES} are the most", made.len());
        return Err(Failure::about(&file, message));
    }
    let numbered: Vec<Access> = numbered(&made);
    let length = made.len() * (made.len() + 1) / 2;
    let bytes = subject.filled(length, |chart, out| {
        bohrali::races(chart, region, Access::bytes(&numbered), out)
    })?;
    Ok(tell(made.len(), &found(&made, &bytes)))
}

fn accesses<'a>(
    subject: &Subject,
    places: &Places,
    line: &Line<'a>,
) -> Result<Vec<Made<'a>>, String> {
    let words: Vec<&str> = line.text.split_whitespace().collect();
    let (kind, place, variable) = match words[..] {
        ["read", place, variable] => (AccessKind::Read, place, variable),
        ["write", place, variable] => (AccessKind::Write, place, variable),
        _ => {
            let found = quoted(line.text);
            return Err(format!(
                "{found} found, 'read PLACE VARIABLE' or 'write PLACE VARIABLE' expected"
            ));
        }
    };
    let made = |node| Made {
        line: line.number,
        node,
        kind,
        variable,
        text: {
            let node = words::node(subject.table(), node);
            format!("{} at {node}, line {}", kind_word(kind), line.number)
        },
    };
    Ok(places.nodes(place)?.into_iter().map(made).collect())
}

/// The accesses with a number for each variable; there are fewer variables than numbers.
fn numbered(made: &[Made]) -> Vec<Access> {
    let mut numbers: HashMap<&str, u16> = HashMap::new();
    let mut accesses = Vec::with_capacity(made.len());
    for access in made {
        let next = numbers.len() as u16;
        let number = *numbers.entry(access.variable).or_insert(next);
        accesses.push(Access::new(access.node, access.kind, number));
    }
    accesses
}

/// The races of the library's bytes, those of data first.
fn found<'a>(made: &'a [Made<'a>], bytes: &[u8]) -> Vec<Found<'a>> {
    let pairs = (0..made.len()).flat_map(|x| (x..made.len()).map(move |y| (x, y)));
    let mut found: Vec<Found> = pairs
        .zip(bytes)
        .filter_map(|((x, y), &byte)| {
            let race = *Race::ALL.get(usize::from(byte))?;
            let pair = [&made[x], &made[y]];
            (race != Race::None).then_some(Found { race, pair })
        })
        .collect();
    found.sort_by_key(|x| x.race != Race::Data);
    found
}

fn race_word(race: Race) -> &'static str {
    match race {
        Race::None => "no race",
        Race::Synchronization => "synchronization",
        Race::Data => "data",
    }
}

fn kind_word(kind: AccessKind) -> &'static str {
    match kind {
        AccessKind::Read => "read",
        AccessKind::Write => "write",
    }
}

fn text(subject: &Subject, made: usize, found: &[Found], terminal: &Terminal) -> String {
    let mut text = String::new();
    for Found { race, pair } in found {
        let colour = match race {
            Race::Data => Colour::Warm,
            _ => Colour::Quiet,
        };
        let word = terminal.paint(colour, &format!("{} race", race_word(*race)));
        let [one, other] = pair;
        let variable = one.variable;
        writeln!(text, "{word} on {variable}: {}; {}", one.text, other.text).ok();
    }
    let data = found.iter().filter(|x| x.race == Race::Data).count();
    text + &format!(
        "{}: {}, {}, {} of synchronization\n",
        subject.file,
        count(made, "access"),
        count(data, "possible data race"),
        found.len() - data
    )
}

fn document(subject: &Subject, region: usize, found: &[Found]) -> String {
    let fields = vec![
        ("file", Json::text(&subject.file)),
        ("region", Json::Number(region)),
        (
            "races",
            Json::list(found, |x| race_fields(x, x.pair[0].variable)),
        ),
    ];
    Json::Object(fields).document()
}

fn race_fields<'a>(found: &Found, variable: impl Into<Cow<'a, str>>) -> Json<'a> {
    let [one, other] = found.pair;
    Json::Object(vec![
        ("race", Json::text(race_word(found.race))),
        ("variable", Json::text(variable)),
        ("a", Json::number(one.node)),
        ("b", Json::number(other.node)),
        ("lines", Json::list([one.line, other.line], Json::Number)),
    ])
}
