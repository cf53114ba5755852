//! What the library says of one region of a file, for the page.

use super::pack::{digits, packed, width};
use super::sizes::{classes, counted, Class};
use crate::evidence::failure;
use crate::json::Json;
use crate::report::Failure;
use crate::subject::{Subject, Team};
use bohrali::layout::ConstructKind;
use bohrali::{Answer, Region};
use std::collections::{BTreeMap, HashMap};
use witness::view::{bits, Role, View};
use witness::{cover, About, Naming, Pattern, Run, Wanted};

/// What is said of cells: the answer, and its words with slots.
type Kind = (u8, Pattern);

/// What the kind of a cell comes from, for teams of one class: the answer, the constructs around the two nodes, and whether the
/// nodes are one and have a common start.
type Source = (u8, [(u64, u64); 2], bool, bool);

struct Reading<'a> {
    subject: &'a Subject,
    view: &'a View<'a>,
    /// The pairs of each sheet that are to be shown by runs.
    wanted: Vec<Wanted>,
    /// Each kind of cell with its number.
    kinds: BTreeMap<Kind, usize>,
    /// The kinds of the cells of each sheet, row by row.
    cells: Vec<usize>,
}

/// The document of a region.
pub fn document<'a>(subject: &'a Subject, region: Region) -> Result<Json<'a>, Failure> {
    let view = View::read(&subject.loaded.bytes, region).map_err(|x| failure(subject, x))?;
    let mut reading = Reading {
        subject,
        view: &view,
        wanted: Vec::new(),
        kinds: BTreeMap::new(),
        cells: Vec::new(),
    };
    let sheets: Result<Vec<Json>, Failure> = classes(&view)
        .into_iter()
        .map(|x| reading.sheet(x))
        .collect();
    let sheets = sheets?;
    let runs = cover(&view, &reading.wanted).map_err(|x| failure(subject, x))?;
    let (sets, [starts, ends]) = barriers(&view);
    let inside = view.role.iter().map(|x| usize::from(*x != Role::Outside));
    let distances = subject.distances(region)?;
    let back = |c: usize| Json::option(view.way_back(c), |x| Json::list(x, Json::Number));
    let masters = counted(&view).filter(|&c| view.kind(c) == ConstructKind::Master);
    let each = view.barriers.iter().copied();
    Ok(Json::Object(vec![
        ("region", Json::Number(region.number())),
        ("inside", numbers(inside)),
        ("barriers", Json::list(each, Json::Number)),
        ("counts", Json::list(counted(&view), Json::Number)),
        ("sets", sets),
        ("starts", numbers(starts)),
        ("ends", numbers(ends)),
        ("distances", numbers(distances.into_iter().map(usize::from))),
        ("back", Json::list(0..view.constructs.len(), back)),
        (
            "masters",
            Json::list(masters, |c| master(&view, subject, c)),
        ),
        ("sheets", Json::List(sheets)),
        ("wide", Json::Number(width(reading.kinds.len()))),
        ("cells", Json::text(reading.cells())),
        ("runs", Json::text(packed_runs(&runs))),
        ("kinds", kinds(reading.kinds)),
    ]))
}

/// Numbers below 4096 as packed text, two digits each.
fn numbers<'a>(numbers: impl IntoIterator<Item = usize>) -> Json<'a> {
    let text: Vec<u8> = numbers.into_iter().flat_map(|x| digits(x, 2)).collect();
    Json::text(packed(&text))
}

/// The sets of barriers that nodes start from or end at, and which of them each node has.
fn barriers<'a>(view: &View) -> (Json<'a>, [Vec<usize>; 2]) {
    let mut sets: Vec<u64> = view.starts.iter().chain(&view.ends).copied().collect();
    sets.sort();
    sets.dedup();
    let place = |x: &u64| sets.partition_point(|y| y < x);
    let places = [&view.starts, &view.ends].map(|x| x.iter().map(place).collect());
    let set = |&mask: &u64| Json::list(bits(mask), |x| Json::Number(view.barriers[x]));
    (Json::list(&sets, set), places)
}

/// A master with what words call it, and its thread.
fn master<'a>(view: &View, subject: &Subject, c: usize) -> Json<'a> {
    let table = subject.table();
    Json::List(vec![
        Json::Number(c),
        Json::text(Naming { view, table }.framed(c)),
        Json::Number(view.constructs[c].filter),
    ])
}

impl Reading<'_> {
    /// The sheet of a class of sizes; its pairs that may be met are to be shown by runs.
    fn sheet<'b>(&mut self, class: Class) -> Result<Json<'b>, Failure> {
        let region = self.view.region;
        let sheet = self.subject.sheet(Team {
            region,
            size: class.size,
        })?;
        let nodes = self.view.nodes();
        let mut pairs = Vec::new();
        let mut known = HashMap::new();
        for (place, &answer) in sheet.iter().enumerate() {
            let (a, b) = (place / nodes, place % nodes);
            if answer == Answer::Concurrent as u8 && a <= b {
                pairs.push((a, b));
            }
            let source = self.source(answer, a, b);
            let kind = known
                .entry(source)
                .or_insert_with(|| self.kind(&class, answer, a, b));
            self.cells.push(*kind);
        }
        let size = class.size;
        self.wanted.push(Wanted { size, pairs });
        Ok(Json::Object(vec![
            ("label", Json::text(class.label)),
            ("size", Json::option(size, |x| Json::Number(x.0))),
        ]))
    }

    fn source(&self, answer: u8, a: usize, b: usize) -> Source {
        let view = self.view;
        let around = [a, b].map(|v| (view.around[v], view.held[v]));
        let has_start = view.starts[a] & view.starts[b] != 0;
        (answer, around, a == b, has_start)
    }

    /// The number of a cell's kind.
    fn kind(&mut self, class: &Class, answer: u8, a: usize, b: usize) -> usize {
        let naming = Naming {
            view: self.view,
            table: self.subject.table(),
        };
        let pattern = match Answer::ALL.get(usize::from(answer)) {
            Some(&known) => Pattern::of(&naming, class.size, known, a, b),
            None => Pattern::default(),
        };
        let next = self.kinds.len();
        *self.kinds.entry((answer, pattern)).or_insert(next)
    }

    /// The cells of all sheets: in each row the kinds, each with how often it stands there, up to 63.
    fn cells(&self) -> String {
        let wide = width(self.kinds.len());
        let mut text = Vec::new();
        for row in self.cells.chunks(self.view.nodes()) {
            for same in row.chunk_by(|x, y| x == y).flat_map(|x| x.chunks(63)) {
                text.extend(digits(same[0], wide).chain(digits(same.len(), 1)));
            }
        }
        packed(&text)
    }
}

/// All runs: the threads of each, its trace, and a semicolon.
fn packed_runs(runs: &[Run]) -> String {
    let mut text = Vec::new();
    for run in runs {
        text.extend(digits(run.threads, 1));
        text.extend(steps(run.trace.iter().map(|x| (x.thread, x.node))).into_bytes());
        text.push(b';');
    }
    packed(&text)
}

/// The kinds by their numbers.
fn kinds<'a>(kinds: BTreeMap<Kind, usize>) -> Json<'a> {
    let mut kinds: Vec<(Kind, usize)> = kinds.into_iter().collect();
    kinds.sort_by_key(|x| x.1);
    Json::list(kinds, |((answer, pattern), _)| {
        Json::Object(vec![
            ("answer", Json::number(answer)),
            ("words", Json::list(pattern.words, Json::text)),
            ("constructs", Json::list(pattern.constructs, about)),
        ])
    })
}

/// A construct by its number, or as the slot of a node's master.
fn about<'a>(about: About) -> Json<'a> {
    match about {
        About::Construct(c) => Json::Number(c),
        About::Master(0) => Json::text("m"),
        About::Master(_) => Json::text("n"),
    }
}

/// A trace as text: a thread, the node that it steps to, and the number of further steps to the next nodes by number.
pub fn steps(entries: impl Iterator<Item = (u8, u8)>) -> String {
    let mut parts: Vec<[usize; 3]> = Vec::new();
    for (thread, node) in entries {
        let (thread, node) = (usize::from(thread), usize::from(node));
        match parts.last_mut() {
            Some([same, from, more])
                if *same == thread && node == *from + *more + 1 && *more < 63 =>
            {
                *more += 1;
            }
            _ => parts.push([thread, node, 0]),
        }
    }
    let part = |[thread, node, more]: [usize; 3]| {
        let thread = digits(thread, 1).chain(digits(node, 2));
        thread.chain(digits(more, 1)).map(char::from)
    };
    parts.into_iter().flat_map(part).collect()
}
