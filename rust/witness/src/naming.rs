//! What nodes, constructs and barriers are called, for a person: numbers, with what the region table says of them.

use crate::view::{bits, Role, View};
use bohrali::layout::{ConstructKind, NodeKind};
use region::{word, Name, Table};

/// A region of a chart with its texts.
#[derive(Clone, Copy)]
pub struct Naming<'a> {
    pub view: &'a View<'a>,
    pub table: &'a Table,
}

impl Naming<'_> {
    /// A construct by kind and number.
    pub fn construct(&self, c: usize) -> String {
        format!("{} {c}", word(self.view.kind(c)))
    }

    /// The same with its name or its thread, its begin and its end.
    pub fn framed(&self, c: usize) -> String {
        let own = &self.view.constructs[c];
        let more = match (own.kind, self.name(own.name)) {
            (ConstructKind::Master, _) => format!("thread {}, ", own.filter),
            (ConstructKind::Critical, Some(name)) => format!("{name}, "),
            _ => String::new(),
        };
        let text = self.construct(c);
        format!("{text} ({more}begin {}, end {})", own.begin, own.end)
    }

    /// The name of criticals; none for the unnamed ones.
    pub fn name(&self, number: u16) -> Option<String> {
        match self.table.names.name(number) {
            Name::Unnamed => None,
            Name::Number(number) => Some(format!("name {number}")),
            Name::Word(word) => Some(word),
        }
    }

    /// A node by number, with its source place or text.
    pub fn placed(&self, v: usize) -> String {
        match self.place(v) {
            place if place.is_empty() => v.to_string(),
            place => format!("{v} ({place})"),
        }
    }

    /// A node by number, source place or text, and what it is where that is more than plain.
    pub fn node(&self, v: usize) -> String {
        self.step(v, String::new())
    }

    /// A node that a thread steps to, with what the step does.
    pub fn step(&self, v: usize, event: String) -> String {
        let place = self.place(v);
        let blank = if place.contains(' ') { ", " } else { " " };
        // what leads to an end or takes a section says which
        let told = match self.view.role[v] {
            Role::End(_) => !event.is_empty(),
            Role::Begin(c) => !event.is_empty() && self.view.kind(c) == ConstructKind::Section,
            _ => false,
        };
        let role = if told { String::new() } else { self.role(v) };
        let what: Vec<String> = [event, role]
            .into_iter()
            .filter(|x| !x.is_empty())
            .collect();
        let mut text = v.to_string();
        for (before, part) in [(" ", place), (blank, what.join(", "))] {
            if !part.is_empty() {
                text += before;
                text += &part;
            }
        }
        text
    }

    /// What the table says of where a node is, or else its tag.
    fn place(&self, v: usize) -> String {
        let text = self.table.places.get(v).map_or("", String::as_str);
        let tag = self.view.chart.nodes[v].tag;
        match (text.is_empty(), tag) {
            (true, 0) => String::new(),
            (true, _) => format!("tag {tag}"),
            // what a terminal would take for a command is not for it
            (false, _) => text
                .chars()
                .map(|x| if x.is_control() { '?' } else { x })
                .collect(),
        }
    }

    fn role(&self, v: usize) -> String {
        let node = self.view.chart.nodes[v];
        match (self.view.role[v], node.kind, node.construct) {
            _ if v == self.view.start => "Start".into(),
            _ if v == self.view.finish => "Finish".into(),
            (Role::Barrier, ..) => "barrier".into(),
            (_, NodeKind::Barrier, Some(c)) => format!("barrier of parallel {c}"),
            (_, NodeKind::Begin, Some(c)) => format!("at {}", self.construct(c.into())),
            (_, NodeKind::End, Some(c)) => format!("behind {}", self.construct(c.into())),
            _ => String::new(),
        }
    }

    /// Barriers of a mask: "barrier 3", "barriers 3 and 7".
    pub fn barriers(&self, mask: u64) -> String {
        let nodes: Vec<String> = bits(mask)
            .map(|i| self.view.barriers[i].to_string())
            .collect();
        match &nodes[..] {
            [] => "no barrier".into(),
            [one] => format!("barrier {one}"),
            [most @ .., last] => format!("barriers {} and {last}", most.join(", ")),
        }
    }
}
