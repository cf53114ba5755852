//! The words of the column `kind`.

use crate::chart::{Chart, Construct, ConstructKind, NodeKind};
use crate::names::{decimal, Name, Names};
use crate::problem::quoted;

/// What a row is.
#[derive(Clone, Debug, PartialEq, Eq)]
pub(crate) enum RowKind {
    Plain,
    Barrier,
    Begin(Directive),
    End,
}

/// What a begin row says of its construct.
#[derive(Clone, Debug, PartialEq, Eq)]
pub(crate) struct Directive {
    pub kind: ConstructKind,
    pub name: Name,
    pub filter: u16,
}

const EXPECTED: &str =
    "plain, barrier, single, master, masked F, critical NAME, do, ordered, sections, \
     section, parallel, end";

/// The kinds of constructs that a word alone says.
const LONE: [(&str, ConstructKind); 6] = [
    ("single", ConstructKind::Single),
    ("do", ConstructKind::Do),
    ("ordered", ConstructKind::Ordered),
    ("sections", ConstructKind::Sections),
    ("section", ConstructKind::Section),
    ("parallel", ConstructKind::Parallel),
];

impl RowKind {
    /// What a cell says, or what is wrong with it.
    pub fn read(cell: &str) -> Result<RowKind, String> {
        let mut words = cell.split_whitespace();
        let word = words.next().unwrap_or("").to_lowercase();
        let rest: Vec<&str> = words.collect();
        let found = quoted(cell);
        match (word.as_str(), rest.as_slice()) {
            ("", _) => Err(format!("nothing found; expected: {EXPECTED}")),
            ("plain", []) => Ok(RowKind::Plain),
            ("barrier", []) => Ok(RowKind::Barrier),
            ("end", []) => Ok(RowKind::End),
            ("master", []) => Ok(masked(0)),
            ("masked", [filter]) if decimal::<u16>(filter).is_some() => {
                Ok(masked(decimal(filter).unwrap_or(0)))
            }
            ("masked", _) => Err(format!(
                "{found} found, 'masked F' expected with the number of the one thread that goes in, 0 to 65535"
            )),
            ("critical", _) => critical(&rest).ok_or_else(|| {
                format!(
                    "{found} found, 'critical' or 'critical NAME' expected, the name one word of letters, digits and _"
                )
            }),
            (word, rest) => lone(word, rest, &found),
        }
    }

    /// The word for it in a message.
    pub fn word(&self) -> &'static str {
        match self {
            RowKind::Plain => "plain",
            RowKind::Barrier => "barrier",
            RowKind::Begin(directive) => word(directive.kind),
            RowKind::End => "end",
        }
    }
}

fn begin(kind: ConstructKind) -> Directive {
    Directive {
        kind,
        name: Name::Unnamed,
        filter: 0,
    }
}

fn masked(filter: u16) -> RowKind {
    RowKind::Begin(Directive {
        filter,
        ..begin(ConstructKind::Master)
    })
}

fn critical(rest: &[&str]) -> Option<RowKind> {
    let name = match rest {
        [] => Name::Unnamed,
        [name] => Name::read(name)?,
        _ => return None,
    };
    Some(RowKind::Begin(Directive {
        name,
        ..begin(ConstructKind::Critical)
    }))
}

/// The other words, which stand alone, and those that people take for one.
fn lone(word: &str, rest: &[&str], found: &str) -> Result<RowKind, String> {
    let known = LONE.iter().find(|x| x.0 == word);
    match (known, word) {
        (Some((_, kind)), _) if rest.is_empty() => Ok(RowKind::Begin(begin(*kind))),
        (Some(_), _) | (None, "plain" | "barrier" | "end") => {
            Err(format!("{found} found, '{word}' alone expected"))
        }
        (None, "master") => Err(format!(
            "{found} found, 'master' alone expected, or 'masked F' for thread F"
        )),
        (None, "for") => Err(
            "'for' found; the loop that OpenMP shares out is called 'do' here, as in Fortran".into(),
        ),
        (None, "begin" | "start" | "finish") => Err(format!(
            "{found} found; the first and last rows are barriers, and a begin has the name of its construct, as 'single'"
        )),
        (None, _) => Err(format!("{found} found; expected: {EXPECTED}")),
    }
}

/// The word for a kind of construct.
pub fn word(kind: ConstructKind) -> &'static str {
    match kind {
        ConstructKind::Master => "masked",
        ConstructKind::Critical => "critical",
        _ => LONE.iter().find(|x| x.1 == kind).map_or("", |x| x.0),
    }
}

/// What a construct is called in its begin row.
pub fn construct_text(construct: &Construct, names: &Names) -> String {
    match (construct.kind, construct.filter) {
        (ConstructKind::Master, 0) => "master".into(),
        (ConstructKind::Master, filter) => format!("masked {filter}"),
        (ConstructKind::Critical, _) => match names.name(construct.name) {
            Name::Unnamed => "critical".into(),
            Name::Number(number) => format!("critical {number}"),
            Name::Word(word) => format!("critical {word}"),
        },
        (kind, _) => word(kind).into(),
    }
}

/// What a node is called in its row.
pub fn node_text(chart: &Chart, names: &Names, node: u8) -> String {
    let Some(own) = chart.node(node) else {
        return String::new();
    };
    let opened = own.construct.and_then(|x| chart.construct(x));
    match (own.kind, opened) {
        (NodeKind::Plain, _) => "plain".into(),
        (NodeKind::Barrier, _) => "barrier".into(),
        (NodeKind::End, _) => "end".into(),
        (NodeKind::Begin, Some(construct)) => construct_text(construct, names),
        (NodeKind::Begin, None) => "begin".into(),
    }
}
