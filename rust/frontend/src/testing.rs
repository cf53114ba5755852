//! Flows made up for tests: structured code in one region, a line of its own for each plain node.

use crate::flow::DirectiveKind;
use crate::Program;
use charts::random::Random;
use std::fmt::Write;

/// A function `f` with one region, which is built up from its start on.
pub(crate) struct Source {
    directives: Vec<String>,
    nodes: Vec<String>,
    edges: Vec<(usize, usize)>,
    within: Vec<usize>,
    /// The nodes that lead to what comes next.
    pub ends: Vec<usize>,
    others: String,
}

impl Source {
    pub fn new() -> Source {
        let mut source = Source {
            directives: Vec::new(),
            nodes: vec!["entry -1".into(), "exit -1".into()],
            edges: Vec::new(),
            within: Vec::new(),
            ends: vec![0],
            others: String::new(),
        };
        source.open(DirectiveKind::Parallel, "");
        source
    }

    fn node(&mut self, kind: &str, rest: &str) -> usize {
        let within = self.within.last().map_or("-1".into(), usize::to_string);
        let number = self.nodes.len();
        self.nodes.push(format!("{kind} {within}{rest}"));
        for end in std::mem::take(&mut self.ends) {
            self.edges.push((end, number));
        }
        self.ends.push(number);
        number
    }

    /// Code with a line that is the node's number.
    pub fn plain(&mut self) -> usize {
        let line = format!(" 0:{}", self.nodes.len());
        self.node("plain", &line)
    }

    pub fn barrier(&mut self) {
        self.node("barrier", "");
    }

    pub fn call(&mut self, callee: &str) {
        let rest = format!(" callee={callee} 0:{}", self.nodes.len());
        self.node("call", &rest);
    }

    pub fn open(&mut self, kind: DirectiveKind, rest: &str) {
        let (number, within) = (self.directives.len(), self.within.last());
        let parent = within.map_or("-1".into(), usize::to_string);
        self.directives
            .push(format!("{} {parent} 0:1{rest}", kind.word()));
        self.node("open", &format!(" of={number}"));
        self.within.push(number);
    }

    pub fn close(&mut self) {
        if let Some(number) = self.within.pop() {
            self.node("close", &format!(" of={number}"));
        }
    }

    /// A branch, of which each part is built in turn.
    pub fn branch(&mut self, parts: [&mut dyn FnMut(&mut Source); 2]) {
        let head = self.plain();
        let mut ends = Vec::new();
        for part in parts {
            self.ends = vec![head];
            part(self);
            ends.append(&mut self.ends);
        }
        ends.sort_unstable();
        ends.dedup();
        self.ends = ends;
    }

    pub fn turns(&mut self, body: &mut dyn FnMut(&mut Source)) {
        let head = self.plain();
        body(self);
        for end in std::mem::take(&mut self.ends) {
            self.edges.push((end, head));
        }
        self.ends = vec![head];
    }

    /// Another function, whose rows are these.
    pub fn other(&mut self, name: &str, rows: &str) {
        write!(self.others, "function 1 {name} 0:1 public\n{rows}end\n").ok();
    }

    pub fn program(mut self) -> Program {
        self.close();
        for end in std::mem::take(&mut self.ends) {
            self.edges.push((end, 1));
        }
        self.edges.sort_unstable();
        self.edges.dedup();
        let mut text =
            "bohrali-flow 1\nunit a.c\nfile 0 a.c\nfunction 0 f 0:1 public\n".to_string();
        for (number, row) in self.directives.iter().enumerate() {
            writeln!(text, "dir {number} {row}").ok();
        }
        for (number, row) in self.nodes.iter().enumerate() {
            writeln!(text, "node {number} {row}").ok();
        }
        for (from, to) in &self.edges {
            writeln!(text, "edge {from} {to}").ok();
        }
        let functions = 1 + usize::from(!self.others.is_empty());
        write!(text, "end\n{}complete {functions}\n", self.others).ok();
        Program::of(&[("a.flow", text.as_bytes())]).expect("a flow")
    }
}

/// Code of at most so many items.
pub(crate) fn random_code(random: &mut Random, source: &mut Source, items: usize) {
    use DirectiveKind::{Critical, For, Master, Ordered, Parallel, Single, Task};
    for _ in 0..random.below(items + 1) {
        let less = items / 2;
        match random.below(9) {
            0 | 1 => {
                source.plain();
            }
            2 => source.barrier(),
            3 => source.turns(&mut |x| random_code(random, x, less)),
            4 => {
                let mut other = Random::new(random.bits());
                source.branch([&mut |x| random_code(random, x, less), &mut |x| {
                    random_code(&mut other, x, less);
                }]);
            }
            5 => random_sections(random, source, less),
            _ => {
                let kind = random.pick(&[Single, Master, Critical, For, Ordered, Parallel, Task]);
                let is_ordered = kind == For && random.percent(50);
                source.open(kind, if is_ordered { " ordered" } else { "" });
                random_code(random, source, less);
                source.close();
            }
        }
    }
}

fn random_sections(random: &mut Random, source: &mut Source, items: usize) {
    let rest = random.pick(&["", "", " cancel", " early"]);
    source.open(DirectiveKind::Sections, rest);
    let begin = std::mem::take(&mut source.ends);
    let mut ends = Vec::new();
    for _ in 0..random.between(1, 3) {
        source.ends.clone_from(&begin);
        source.open(DirectiveKind::Section, "");
        random_code(random, source, items);
        source.close();
        ends.append(&mut source.ends);
    }
    source.ends = ends;
    source.close();
}
