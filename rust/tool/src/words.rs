//! The library's numbers in words.

use crate::report::Colour;
use bohrali::{Answer, Region};
use region::{Name, Table};

/// What an answer of the sheet says.
pub fn answer(number: u8) -> &'static str {
    match Answer::ALL.get(usize::from(number)) {
        Some(Answer::Concurrent) => "two threads can be there together, in a run that finishes",
        Some(Answer::NoCommonPhase) => "never: no common start, or no common end",
        Some(Answer::Master) => "never: both inside masked constructs of the same filter",
        Some(Answer::Single) => "never: both inside one single, which does not return",
        Some(Answer::Ordered) => "never: both inside ordereds of one do, which does not return",
        Some(Answer::Section) => "never: both inside one section, whose sections does not return",
        Some(Answer::OneThread) => "never: the team has one thread",
        Some(Answer::MissingThread) => "never: the team lacks the thread of a masked construct",
        _ => "no answer: a barrier, or outside the region",
    }
}

/// Whether an answer of the sheet is a never; 255 is none.
pub fn is_never(number: u8) -> bool {
    number != Answer::Concurrent as u8 && usize::from(number) < Answer::ALL.len()
}

pub fn colour(number: u8) -> Colour {
    match number {
        0 => Colour::Warm,
        1 | 255 => Colour::Quiet,
        _ => Colour::Good,
    }
}

/// A node with where it is, or else what it is.
pub fn node(table: &Table, node: u8) -> String {
    match table.place(node) {
        "" => format!("{node} ({})", table.kind(node)),
        place => format!("{node} ({place})"),
    }
}

/// The source lines of a node's own code.
pub fn own_lines(table: &Table, node: u8) -> &str {
    let place = table.place(node);
    let behind = [" via ", " into "].map(|x| place.find(x).unwrap_or(place.len()));
    let own = &place[..behind[0].min(behind[1])];
    match own.starts_with("via ") || own.starts_with("into ") {
        true => "",
        false => own,
    }
}

/// That two threads can be at two nodes, which may be one.
pub fn together(table: &Table, a: u8, b: u8) -> String {
    let at = match a == b {
        true => node(table, a),
        false => format!("{} and {}", node(table, a), node(table, b)),
    };
    format!("two threads can be at {at} together")
}

/// A region by its number, with where its parallel begins.
pub fn region(table: &Table, region: Region) -> String {
    let Region::Parallel(number) = region else {
        return "the outermost region".into();
    };
    let begin = u8::try_from(number).ok().and_then(|x| table.chart.begin(x));
    match begin.map_or("", |x| table.place(x)) {
        "" => format!("region {number}"),
        place => format!("region {number} ({place})"),
    }
}

/// A critical's name, nothing where it has none.
pub fn name(name: &Name) -> String {
    match name {
        Name::Unnamed => String::new(),
        Name::Number(number) => number.to_string(),
        Name::Word(word) => word.clone(),
    }
}

/// A count with its noun.
pub fn count(number: usize, noun: &str) -> String {
    match (number, noun.strip_suffix('y')) {
        (1, _) => format!("1 {noun}"),
        (_, Some(stem)) => format!("{number} {stem}ies"),
        (_, None) if noun.ends_with("ss") => format!("{number} {noun}es"),
        (_, None) => format!("{number} {noun}s"),
    }
}
