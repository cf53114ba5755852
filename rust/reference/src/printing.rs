//! The printing program of "Charts with known answers": the text that it writes for the bytes that
//! it is given on standard input.

use crate::answers::Rules;
use crate::regions::read_outermost;
use std::fmt::Write;

/// Input over so many bytes "prints `refused 4`", whatever they are; 02: "now takes 3,120 bytes".
pub const MOST_BYTES: usize = 3120;

/// All that the program prints, which are "the outermost region's" lines.
pub fn text(input: &[u8]) -> String {
    let chart = if input.len() > MOST_BYTES {
        Err(4)
    } else {
        read_outermost(input)
    };
    match chart {
        Ok(chart) => lines(&Rules::of(chart)).expect("text grows"),
        Err(number) => format!("refused {number}\n"),
    }
}

/// "The three counts, then for each non-barrier node, rising, its number, starts and ends as decimal
/// masks, then each pair a ≤ b of non-barriers, by a and then b, with its answer."
fn lines(rules: &Rules) -> Result<String, std::fmt::Error> {
    let Rules { chart, phases, .. } = rules;
    let (nodes, barriers) = (chart.nodes.len(), chart.barriers().len());
    let count = phases.count();
    let mut text = format!("chart {nodes} nodes {barriers} barriers {count} phases\n");
    let others: Vec<usize> = (0..nodes).filter(|&x| !chart.is_barrier(x)).collect();
    for &x in &others {
        let (starts, ends) = (phases.starts[x], phases.ends[x]);
        writeln!(text, "node {x} starts {starts} ends {ends}")?;
    }
    for (place, &a) in others.iter().enumerate() {
        for &b in &others[place..] {
            writeln!(text, "pair {a} {b} {}", rules.answer(a, b))?;
        }
    }
    Ok(text)
}
