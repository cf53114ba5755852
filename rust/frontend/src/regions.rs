//! The region tables of a program, and what must be known beside each.

use crate::alike::branches;
use crate::carried::Carried;
use crate::charting::chart;
use crate::flow::{DirectiveKind, FlowNode, NodeKind, SourceLine};
use crate::graph::Record;
use crate::inlining::Parallel;
use crate::map::{Map, Mapped, Marked};
use crate::notes::{Key, Notes};
use crate::program::{Program, Target};
use crate::records::{critical_name, Charted};
use region::Table;
use std::collections::{BTreeMap, BTreeSet};

/// A region of a program.
#[derive(Debug)]
pub struct RegionChart {
    /// Of its function and line, as a file may be called.
    pub name: String,
    /// None where the notes say why.
    pub table: Option<Table>,
    pub notes: Notes,
    pub map: Map,
}

/// A region with its chart, or why it has none.
struct Charting {
    region: Parallel,
    result: Result<Charted, String>,
}

impl Program {
    /// All regions, in the order of the flows; and what is known of the program as a whole.
    pub fn regions(&self) -> (Vec<RegionChart>, Notes) {
        let charted: Vec<Charting> = self
            .parallels()
            .map(|region| Charting {
                region,
                result: chart(self, region),
            })
            .collect();
        let carried = Carried::new(self, held_lines(&charted));
        let mut names = BTreeMap::new();
        let mut regions = Vec::new();
        for charting in &charted {
            regions.push(RegionChart {
                name: self.region_name(charting.region, &mut names),
                table: charting
                    .result
                    .as_ref()
                    .ok()
                    .map(|x| self.table(x, &carried)),
                notes: self.notes(charting, &carried),
                map: self.map(charting),
            });
        }
        let whole = self.whole_notes(&charted, &regions);
        (regions, whole)
    }

    fn parallels(&self) -> impl Iterator<Item = Parallel> + '_ {
        self.bodies().flat_map(|(function, body)| {
            let directives = body.of_kind(DirectiveKind::Parallel);
            directives.map(move |directive| Parallel {
                function,
                directive,
            })
        })
    }

    /// A source line as text.
    pub(crate) fn line(&self, line: SourceLine) -> String {
        format!("{}:{}", self.words.text(line.file), line.line)
    }

    fn place(&self, region: Parallel) -> Option<SourceLine> {
        let body = self.functions[region.function].body.as_ref().ok()?;
        Some(body.directives[region.directive].place)
    }

    /// By what a recorded run names the region, and each node of its chart.
    fn map(&self, charting: &Charting) -> Map {
        let mark = |function: usize| self.functions[function].mark;
        let nodes = charting.result.as_ref().ok().map(|x| {
            let marked = |x: &Record| Marked {
                function: mark(x.function),
                node: x.node as u32,
                depth: x.depth.min(usize::from(u8::MAX)) as u8,
            };
            let node = |(records, is_passed): &(Vec<Record>, bool)| Mapped {
                entries: records.iter().map(marked).collect(),
                is_passed: *is_passed,
            };
            x.records.iter().map(node).collect()
        });
        Map {
            function: mark(charting.region.function),
            directive: charting.region.directive as u32,
            nodes: nodes.unwrap_or_default(),
        }
    }

    /// FUNCTION-LINE, with a number behind it from the second of that name on.
    fn region_name(&self, region: Parallel, taken: &mut BTreeMap<String, usize>) -> String {
        let symbol = self.words.text(self.functions[region.function].symbol);
        let is_kept = |x: &char| x.is_ascii_alphanumeric() || matches!(x, '_' | '.');
        let kept: String = symbol.chars().filter(is_kept).take(100).collect();
        let line = self.place(region).map_or(0, |x| x.line);
        let name = format!("{}-{line}", kept.trim_start_matches('.'));
        let count = taken.entry(name.clone()).or_default();
        *count += 1;
        match *count {
            1 => name,
            count => format!("{name}-{count}"),
        }
    }

    fn table(&self, charted: &Charted, carried: &Carried) -> Table {
        let cell = |(node, [own, via]): (usize, &[Vec<SourceLine>; 2])| {
            let calls = charted.calls_at[node].iter();
            let inside: BTreeSet<SourceLine> = calls.flat_map(|&x| carried.lines(x)).collect();
            let inside: Vec<SourceLine> = inside.into_iter().filter(|x| !own.contains(x)).collect();
            let mut cell = self.cell(own);
            for (word, lines) in [("via", via), ("into", &inside)] {
                if !lines.is_empty() {
                    cell += &format!(" {word} {}", self.cell(lines));
                }
            }
            cell.trim().into()
        };
        Table {
            chart: charted.chart.clone(),
            places: charted.lines.iter().enumerate().map(cell).collect(),
            names: charted.names.clone(),
        }
    }

    /// Source lines as a cell `where` has them, those that follow one another as one.
    fn cell(&self, lines: &[SourceLine]) -> String {
        let mut lines: Vec<(&str, u32)> = lines
            .iter()
            .map(|x| (self.words.text(x.file), x.line))
            .collect();
        lines.sort_unstable();
        let mut ranges: Vec<(&str, u32, u32)> = Vec::new();
        for (file, line) in lines {
            match ranges.last_mut() {
                Some(last) if last.0 == file && last.2.checked_add(1) == Some(line) => {
                    last.2 = line
                }
                _ => ranges.push((file, line, line)),
            }
        }
        let words: Vec<String> = ranges
            .into_iter()
            .map(|(file, first, last)| match first == last {
                true => format!("{file}:{first}"),
                false => format!("{file}:{first}-{last}"),
            })
            .collect();
        words.join(" ")
    }

    fn notes(&self, charting: &Charting, carried: &Carried) -> Notes {
        let mut notes = Notes::default();
        let Some(place) = self.place(charting.region) else {
            return notes;
        };
        let function = &self.functions[charting.region.function];
        notes.add(
            Key::Region,
            self.words.text(function.symbol),
            self.line(place),
        );
        self.note_directive(charting.region, &mut notes);
        let calls = match &charting.result {
            Ok(charted) => {
                self.note_unanswered(charted, carried, &mut notes);
                self.note_chart(charted, &mut notes);
                charted.calls.clone()
            }
            Err(why) => {
                notes.add(Key::NoChart, why.as_str(), "");
                let (mut lines, calls) = self.note_unread(charting.region, &mut notes);
                lines.extend(calls.iter().flat_map(|&x| carried.lines(x)));
                let unanswered = lines.into_iter().map(|x| (x, why.as_str()));
                self.note_lines(unanswered.collect(), &mut notes);
                calls
            }
        };
        self.note_calls(calls, &mut notes);
        notes
    }

    /// What its directive says, and what is around it.
    fn note_directive(&self, region: Parallel, notes: &mut Notes) {
        let Ok(body) = &self.functions[region.function].body else {
            return;
        };
        let directive = &body.directives[region.directive];
        if let Some(threads) = directive.threads {
            notes.add(Key::Threads, threads.to_string(), "");
        }
        for around in body.around(directive.parent).map(|x| &body.directives[x]) {
            if matches!(around.kind, DirectiveKind::Target | DirectiveKind::Teams) {
                let reason = format!("at {}", self.line(around.place));
                notes.add(Key::SeveralTeams, around.kind.word(), reason);
            }
        }
    }

    /// Lines in code that the chart leaves out, and in what is called there.
    fn note_unanswered(&self, charted: &Charted, carried: &Carried, notes: &mut Notes) {
        let mut unanswered = charted.unanswered.clone();
        for (&target, &why) in &charted.unanswered_calls {
            for line in carried.lines(target) {
                unanswered.entry(line).or_insert(why);
            }
        }
        self.note_lines(unanswered, notes);
    }

    /// Lines without an answer, those that follow one another as one.
    fn note_lines(&self, unanswered: BTreeMap<SourceLine, &str>, notes: &mut Notes) {
        let mut by_reason: BTreeMap<&str, Vec<SourceLine>> = BTreeMap::new();
        for (line, why) in unanswered {
            by_reason.entry(why).or_default().push(line);
        }
        for (why, lines) in by_reason {
            for range in self.cell(&lines).split(' ') {
                notes.add(Key::NoAnswer, range, why);
            }
        }
    }

    fn note_chart(&self, charted: &Charted, notes: &mut Notes) {
        for node in branches(&charted.chart) {
            if let Some(line) = charted.last[node] {
                notes.add(Key::BranchAlike, self.line(line), "");
            }
        }
        for (&function, &why) in &charted.closed {
            let symbol = self.functions[function].symbol;
            notes.add(Key::NotOpened, self.words.text(symbol), why);
        }
        for (name, place) in &charted.hidden {
            let reason = format!("{}, in code that the chart leaves out", self.line(*place));
            notes.add(Key::CriticalOutOfSight, shown(name), reason);
        }
        for (what, count) in &charted.lessened {
            let times = if *count == 1 {
                String::new()
            } else {
                format!("{count} times")
            };
            notes.add(Key::TakenForLess, what.as_str(), times);
        }
        for what in &charted.lost {
            notes.add(Key::LostToLimits, what.as_str(), "");
        }
    }

    /// Of a region without a chart all criticals are out of sight. Returns its lines, which have no answer,
    /// and what its calls come to.
    fn note_unread(
        &self,
        region: Parallel,
        notes: &mut Notes,
    ) -> (BTreeSet<SourceLine>, BTreeSet<Target>) {
        let Ok(body) = &self.functions[region.function].body else {
            return Default::default();
        };
        let is_inside = |x: &&FlowNode| body.around(x.within).any(|y| y == region.directive);
        let inside: Vec<&FlowNode> = body.nodes.iter().filter(is_inside).collect();
        for directive in inside
            .iter()
            .filter(|x| x.kind == NodeKind::Open)
            .filter_map(|x| x.of)
            .map(|x| &body.directives[x])
        {
            if directive.kind == DirectiveKind::Critical {
                let name = critical_name(&self.words, directive.name);
                let reason = format!(
                    "{}, in a region without a chart",
                    self.line(directive.place)
                );
                notes.add(Key::CriticalOutOfSight, shown(&name), reason);
            }
        }
        let lines = inside.iter().flat_map(|x| x.lines.iter().copied());
        let callees = inside.iter().filter_map(|x| x.callee);
        (
            lines.collect(),
            callees.map(|x| self.target(region.function, x)).collect(),
        )
    }

    /// Criticals in routines that are not opened, and calls of which nothing is known.
    fn note_calls(&self, calls: BTreeSet<Target>, notes: &mut Notes) {
        for target in self.reached(calls) {
            let function = match target {
                Target::Known(function) => &self.functions[function],
                Target::Unknown(symbol) => {
                    notes.add(Key::UnknownRoutine, self.words.text(symbol), "");
                    continue;
                }
                Target::Pointer => {
                    notes.add(Key::UnknownRoutine, "*", "a call through a pointer");
                    continue;
                }
                Target::Library => continue,
            };
            let Ok(body) = &function.body else { continue };
            let routine = self.words.text(function.symbol);
            for directive in body.of_kind(DirectiveKind::Critical) {
                let directive = &body.directives[directive];
                let name = critical_name(&self.words, directive.name);
                let place = self.line(directive.place);
                let reason = format!("{place}, in {routine}, which is not opened");
                notes.add(Key::CriticalOutOfSight, shown(&name), reason);
            }
        }
    }

    fn whole_notes(&self, charted: &[Charting], regions: &[RegionChart]) -> Notes {
        let mut notes = Notes::default();
        for region in regions {
            let has_table = if region.table.is_some() {
                ""
            } else {
                "no chart"
            };
            notes.add(Key::Table, region.name.as_str(), has_table);
        }
        for (function, why) in self.given_up() {
            notes.add(Key::NotRead, function, why);
        }
        let results = charted.iter().filter_map(|x| x.result.as_ref().ok());
        let met: BTreeSet<(usize, usize)> =
            results.flat_map(|x| x.criticals.iter().copied()).collect();
        for (function, body) in self.bodies() {
            for number in body.of_kind(DirectiveKind::Critical) {
                let directive = &body.directives[number];
                if !met.contains(&(function, number)) {
                    let name = critical_name(&self.words, directive.name);
                    let reason = format!("{}, in no region's chart", self.line(directive.place));
                    notes.add(Key::CriticalOutOfSight, shown(&name), reason);
                }
            }
        }
        notes
    }
}

/// The name of a critical in a note.
fn shown(name: &str) -> &str {
    if name.is_empty() {
        "(unnamed)"
    } else {
        name
    }
}

/// The lines with code at some chart's nodes.
fn held_lines(charted: &[Charting]) -> BTreeSet<SourceLine> {
    let results = charted.iter().filter_map(|x| x.result.as_ref().ok());
    let lines = results.flat_map(|x| x.lines.iter().flatten().flatten());
    lines.copied().collect()
}
