//! The nodes and regions that two files have in common.

use crate::subject::Subject;
use crate::words::count;
use bohrali::Region;
use region::{ConstructKind, NodeKind, Table};
use std::collections::HashMap;

/// Pairs of what is in the old file and what it is in the new one.
pub struct Matching {
    pub nodes: Vec<(u8, u8)>,
    pub regions: Vec<(Region, Region)>,
}

impl Matching {
    /// What has the same number.
    pub fn by_number(old: &Subject, new: &Subject) -> Matching {
        let common = (0u8..).take(old.nodes().min(new.nodes()));
        let is_new = |x: &Region| new.table().chart.regions().any(|y| y == *x);
        let regions = old.table().chart.regions().filter(is_new);
        Matching {
            nodes: common.map(|x| (x, x)).collect(),
            regions: regions.map(|x| (x, x)).collect(),
        }
    }

    /// What has the same text in `where` and is of the same kind, the first with the first; and regions whose
    /// begins match.
    pub fn by_where(old: &Subject, new: &Subject) -> Matching {
        let texts = texts(new.table());
        let found = texts_in_turn(old.table(), &texts);
        let parallel = |subject: &Subject, node: u8| {
            let chart = &subject.table().chart;
            let begin = chart.node(node).filter(|x| x.kind == NodeKind::Begin)?;
            let kind = chart.construct(begin.construct?)?.kind;
            let number = begin.construct?.into();
            (kind == ConstructKind::Parallel).then_some(Region::Parallel(number))
        };
        let inner = found
            .iter()
            .filter_map(|&(x, y)| Some((parallel(old, x)?, parallel(new, y)?)));
        let outermost = (Region::Outermost, Region::Outermost);
        Matching {
            regions: [outermost].into_iter().chain(inner).collect(),
            nodes: found,
        }
    }

    /// What a person should know: nodes of the old file that nothing is compared with, and nodes that are
    /// something else now.
    pub fn notes(&self, old: &Subject, new: &Subject) -> Vec<String> {
        let left = old.nodes() - self.nodes.len();
        let kind = |x: &Subject, node: u8| x.table().kind(node);
        let differs = |x: &&(u8, u8)| kind(old, x.0) != kind(new, x.1);
        let other = self.nodes.iter().filter(differs).count();
        let regions = old.table().chart.regions().count() - self.regions.len();
        let mut notes = Vec::new();
        for (left, what) in [(left, "node"), (regions, "region")] {
            if left > 0 {
                let left = count(left, what);
                notes.push(format!(
                    "{}: {left} without a match in {}",
                    old.file, new.file
                ));
            }
        }
        if other > 0 {
            let other = count(other, "node");
            notes.push(format!(
                "{}: {other} of another kind than in {}; where rows were put in, '--by where' matches by source",
                new.file, old.file
            ));
        }
        notes
    }
}

/// What a node is matched by.
type Text = (String, String);

fn text(table: &Table, node: u8) -> Option<Text> {
    let place = table.place(node);
    (!place.is_empty()).then(|| (place.into(), table.kind(node)))
}

/// The nodes of each text, rising.
fn texts(table: &Table) -> HashMap<Text, Vec<u8>> {
    let mut texts: HashMap<Text, Vec<u8>> = HashMap::new();
    for node in (0u8..).take(table.places.len()) {
        if let Some(text) = text(table, node) {
            texts.entry(text).or_default().push(node);
        }
    }
    texts
}

fn texts_in_turn(old: &Table, new: &HashMap<Text, Vec<u8>>) -> Vec<(u8, u8)> {
    let mut turns: HashMap<Text, usize> = HashMap::new();
    let mut found = Vec::new();
    for node in (0u8..).take(old.places.len()) {
        let Some(text) = text(old, node) else {
            continue;
        };
        let turn = turns.entry(text.clone()).or_default();
        if let Some(&other) = new.get(&text).and_then(|x| x.get(*turn)) {
            found.push((node, other));
        }
        *turn += 1;
    }
    found
}
