//! The rows of a function.

use crate::flow::{
    Body, Callee, Directive, DirectiveKind, Filter, FlowNode, NodeKind, Word, Words,
};
use crate::reader::{below_limit, number, safe_word, source_line, Cells, Outcome};

/// A function's body as far as its rows have been read.
#[derive(Default)]
pub(crate) struct Draft {
    body: Body,
    trouble: Option<String>,
}

impl Draft {
    pub fn give_up(&mut self, why: &str) -> Outcome<()> {
        self.trouble = Some(why.into());
        Ok(())
    }

    pub fn directive(
        &mut self,
        mut cells: Cells,
        files: &[Word],
        words: &mut Words,
    ) -> Outcome<()> {
        let directives = &mut self.body.directives;
        cells.in_turn(directives.len())?;
        let mut read = Directive {
            kind: word(cells.next("a directive")?, &DirectiveKind::WORDS)?,
            parent: cells.optional("directive", directives.len())?,
            place: source_line(files, cells.next("a place")?)?,
            is_flat: false,
            is_ordered: false,
            is_cancelled: false,
            is_early: false,
            name: None,
            filter: Filter::Thread(0),
            threads: None,
        };
        while let Some(cell) = cells.more() {
            match cell.split_once('=').unwrap_or((cell, "")) {
                ("flat", "") => read.is_flat = true,
                ("ordered", "") => read.is_ordered = true,
                ("cancel", "") => read.is_cancelled = true,
                ("early", "") => read.is_early = true,
                ("name", name) => read.name = Some(words.number(safe_word(name)?)),
                ("filter", "?") => read.filter = Filter::Unknown,
                ("filter", thread) => read.filter = Filter::Thread(number(thread)?),
                ("threads", "?") => {}
                ("threads", threads) => read.threads = Some(number(threads)?),
                _ => return Err(format!("'{cell}' is nothing that a directive has")),
            }
        }
        directives.push(read);
        Ok(())
    }

    pub fn node(&mut self, mut cells: Cells, files: &[Word], words: &mut Words) -> Outcome<()> {
        let directives = self.body.directives.len();
        cells.in_turn(self.body.nodes.len())?;
        let mut read = FlowNode {
            kind: word(cells.next("a kind")?, &NodeKind::WORDS)?,
            within: cells.optional("directive", directives)?,
            of: None,
            callee: None,
            lines: Vec::new(),
            is_mute: false,
        };
        let mut is_library = false;
        while let Some(cell) = cells.more() {
            match cell.split_once('=').unwrap_or((cell, "")) {
                ("of", directive) => {
                    read.of = Some(below_limit("directive", number(directive)?, directives)?);
                }
                ("stop", "") => {}
                ("mute", "") => read.is_mute = true,
                ("library", "") => is_library = true,
                ("callee", "*") => read.callee = Some(Callee::Pointer),
                ("callee", symbol) => {
                    let symbol = words.number(safe_word(symbol)?);
                    read.callee = Some(if is_library {
                        Callee::Library(symbol)
                    } else {
                        Callee::Routine(symbol)
                    });
                }
                _ => read.lines.push(source_line(files, cell)?),
            }
        }
        let is_frame = matches!(read.kind, NodeKind::Open | NodeKind::Close);
        if read.of.is_some() != is_frame || read.callee.is_some() != (read.kind == NodeKind::Call) {
            return Err("opens and closes name a directive with of=, calls a routine with callee=, and no others do".into());
        }
        self.body.nodes.push(read);
        Ok(())
    }

    pub fn edge(&mut self, mut cells: Cells) -> Outcome<()> {
        let nodes = self.body.nodes.len();
        let from = below_limit("node", cells.number("a node")?, nodes)?;
        let to = below_limit("node", cells.number("a node")?, nodes)?;
        if self.body.edges.last().is_some_and(|&x| x >= (from, to)) {
            return Err("edges rise by their two nodes".into());
        }
        self.body.edges.push((from, to));
        cells.end()
    }

    /// The body, or why it was given up; or what its rows lack.
    pub fn finish(self) -> Outcome<Result<Body, String>> {
        let mut body = self.body;
        if let Some(why) = self.trouble {
            return Ok(Err(why));
        }
        body.entry = only(&body, NodeKind::Entry)?;
        body.exit = only(&body, NodeKind::Exit)?;
        if body
            .edges
            .iter()
            .any(|x| x.0 == body.exit || x.1 == body.entry)
        {
            return Err("an edge leads into the entry or out of the exit".into());
        }
        body.frames = frames(&body)?;
        Ok(Ok(body))
    }
}

fn word<T: Copy>(text: &str, words: &[(&str, T)]) -> Outcome<T> {
    let found = words.iter().find(|x| x.0 == text);
    found
        .map(|x| x.1)
        .ok_or_else(|| format!("'{text}' is not known here"))
}

/// The one node of a kind, outside all directives.
fn only(body: &Body, kind: NodeKind) -> Outcome<usize> {
    let mut found = (0..body.nodes.len()).filter(|&x| body.nodes[x].kind == kind);
    match (found.next(), found.next()) {
        (Some(node), None) if body.nodes[node].within.is_none() => Ok(node),
        _ => Err("a function has one entry and one exit, outside all directives".into()),
    }
}

/// Each directive is opened once, where it stands, and closed at most once.
fn frames(body: &Body) -> Outcome<Vec<(usize, Option<usize>)>> {
    let mut opened = vec![None; body.directives.len()];
    let mut closed = vec![None; body.directives.len()];
    for (number, node) in body.nodes.iter().enumerate() {
        let Some(directive) = node.of else { continue };
        let table = if node.kind == NodeKind::Open {
            &mut opened
        } else {
            &mut closed
        };
        let before = table[directive].replace(number);
        if before.is_some() || node.within != body.directives[directive].parent {
            return Err(format!(
                "directive {directive} is opened or closed twice, or away from its place"
            ));
        }
    }
    let pairs = opened.into_iter().zip(closed);
    let pairs = pairs.map(|(open, close)| Some((open?, close)));
    let whole: Option<Vec<_>> = pairs.collect();
    whole.ok_or_else(|| "a directive is never opened".into())
}
