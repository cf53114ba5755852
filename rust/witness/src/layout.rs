//! The columns of a run's table, a thread each, within 100 characters.

use crate::certify::Run;
use crate::rows::{Cell, Row};
use std::iter;

/// The width that everything fits.
pub const WIDTH: usize = 100;
/// Step number and mark.
pub const MARGIN: usize = 12;
/// Between columns.
const GAP: usize = 2;
/// Of a column that has node numbers alone.
const NARROW: usize = 4;
const LEAST: usize = 10;

/// A column: its width, and whether it has texts or node numbers alone.
#[derive(Clone, Copy)]
struct Column {
    width: usize,
    texts: bool,
}

impl Column {
    fn of_texts(width: usize) -> Column {
        Column { width, texts: true }
    }
}

/// By thread its column.
pub struct Layout(Vec<Column>);

impl Layout {
    /// Texts in all columns where they fit; else in those of the two threads, which share what is left.
    pub fn of(run: &Run, rows: &[Row]) -> Layout {
        let widest = |thread: usize| {
            let cells = rows.iter().filter_map(|row| cells(row)?.get(thread));
            let widths = cells.map(|cell| text(cell, true).chars().count());
            widths.max().unwrap_or(0).max(LEAST)
        };
        let widths: Vec<usize> = (0..run.threads).map(widest).collect();
        let room = WIDTH - MARGIN - GAP * (run.threads - 1);
        let fits = widths.iter().sum::<usize>() <= room;
        let room = room - NARROW * (run.threads - 2);
        let [first, second] = run.at.map(|thread| widths[thread]);
        let first = first.min((room / 2).max(room.saturating_sub(second)));
        let two = [first, second.min(room - first)];
        let column = |thread: usize| match run.at.iter().position(|&x| x == thread) {
            _ if fits => Column::of_texts(widths[thread]),
            Some(i) => Column::of_texts(two[i]),
            None => Column {
                width: NARROW,
                texts: false,
            },
        };
        Layout((0..run.threads).map(column).collect())
    }

    pub fn heading(&self) -> String {
        let names = self
            .0
            .iter()
            .enumerate()
            .map(|(thread, column)| match column.texts {
                true => format!("thread {thread}"),
                false => format!("t{thread}"),
            });
        self.line("step", "", &names.collect::<Vec<_>>(), ' ')
    }

    pub fn row(&self, row: &Row) -> Vec<String> {
        match row {
            Row::First(cells) => self.cells("", "", cells, ' '),
            Row::Release(step, cells) => self.cells(&step.to_string(), "opens", cells, '-'),
            Row::Step(step, cells) => self.cells(&step.to_string(), "", cells, ' '),
            Row::Met(step, cells) => self.cells(&step.to_string(), ">>>>>", cells, ' '),
            Row::Folded(from, to, what) => {
                let text = format!(".. steps {from} to {to}: {what}");
                let lines = wrapped(&text, WIDTH - MARGIN, 3);
                lines
                    .iter()
                    .map(|line| format!("{:MARGIN$}{line}", ""))
                    .collect()
            }
        }
    }

    /// The lines of one row: a text that is wider than its column goes on below.
    fn cells(&self, step: &str, mark: &str, cells: &[Cell], fill: char) -> Vec<String> {
        let texts = cells.iter().zip(&self.0);
        let texts: Vec<Vec<String>> = texts
            .map(|(cell, column)| wrapped(&text(cell, column.texts), column.width, 2))
            .collect();
        let height = texts.iter().map(Vec::len).max().unwrap_or(0);
        let part = |line: usize| -> Vec<String> {
            texts
                .iter()
                .map(|x| x.get(line).cloned().unwrap_or_default())
                .collect()
        };
        let first = iter::once(self.line(step, mark, &part(0), fill));
        first
            .chain((1..height).map(|line| self.line("", "", &part(line), ' ')))
            .collect()
    }

    fn line(&self, step: &str, mark: &str, parts: &[String], fill: char) -> String {
        let mut line = format!("{step:>5} {mark:<5} ");
        for (part, column) in parts.iter().zip(&self.0) {
            line.push_str(part);
            let left = column.width.saturating_sub(part.chars().count());
            match (fill, left) {
                (' ', _) | (_, 0) => line.extend(iter::repeat_n(' ', left + GAP)),
                _ => line.extend(
                    iter::once(' ')
                        .chain(iter::repeat_n(fill, left - 1))
                        .chain([' '; GAP]),
                ),
            }
        }
        line.trim_end().into()
    }

    /// The line below the moment.
    pub fn together(&self, at: [usize; 2], nodes: [usize; 2]) -> String {
        let mark = |thread: usize| match at.iter().position(|&x| x == thread) {
            Some(i) => format!("^^^^ at {}", nodes[i]),
            None => String::new(),
        };
        let parts: Vec<String> = (0..self.0.len()).map(mark).collect();
        let line = self.line("", ">>>>>", &parts, ' ');
        format!("{line}, together")
    }
}

fn cells(row: &Row) -> Option<&[Cell]> {
    match row {
        Row::First(cells) | Row::Release(_, cells) | Row::Step(_, cells) | Row::Met(_, cells) => {
            Some(cells)
        }
        Row::Folded(..) => None,
    }
}

fn text(cell: &Cell, whole: bool) -> String {
    match cell {
        Cell::Node(_, text) if whole => text.clone(),
        Cell::Node(node, _) => node.to_string(),
        Cell::Stays => "|".into(),
    }
}

/// A text in lines of so many characters, broken at blanks where there are some; all but the first are indented.
pub fn wrapped(text: &str, width: usize, indent: usize) -> Vec<String> {
    let mut lines = Vec::new();
    let mut line = String::new();
    for word in text.split(' ') {
        let mut word: Vec<char> = word.chars().collect();
        loop {
            let started = line.chars().count();
            let blank = usize::from(!line.trim().is_empty());
            if started + blank + word.len() <= width {
                line.extend(iter::repeat_n(' ', blank).chain(word));
                break;
            }
            if blank == 0 {
                // a word that is wider than a line
                let rest = word.split_off(width.saturating_sub(started).max(1).min(word.len()));
                line.extend(word);
                word = rest;
            }
            lines.push(std::mem::replace(&mut line, " ".repeat(indent)));
        }
    }
    lines.push(line);
    lines
}
