//! The stored output of the test program `known_charts` is what this implementation gives for the
//! charts of its input, spelt there in letters, and for those at the limits.

use reference::builder::ChartBuilder;
use reference::chart::Construct;
use reference::known::{longest, one_region};
use reference::masked::construct_bytes;
use reference::regions::OUTERMOST;
use reference::{admit, calls, sizes};
use std::fmt::Write;
use std::{fs, path::PathBuf};

fn stored(file: &str) -> String {
    let root = PathBuf::from(env!("CARGO_MANIFEST_DIR")).join("../../crates/known_charts");
    fs::read_to_string(root.join(file)).expect("a file of the test program")
}

/// The byte that a letter spells.
fn byte(letter: char) -> u8 {
    match letter {
        'p' | '.' => 0,
        'b' | 's' => 1,
        '<' | 'm' => 2,
        '>' | 'c' => 3,
        'd' => 4,
        'o' => 5,
        '~' => 254,
        '-' => 255,
        _ => letter.to_digit(36).expect("a digit or a capital") as u8,
    }
}

fn letters(part: &str) -> Vec<u8> {
    let spelt = part.chars().filter(|letter| *letter != ' ');
    spelt.map(byte).collect()
}

fn hexadecimal(part: &str) -> Vec<u8> {
    let digits = letters(part);
    digits
        .chunks(2)
        .map(|pair| pair[0] << 4 | pair[1])
        .collect()
}

/// The trailer that follows from the edition and the lengths of the three parts.
fn trailer(edition: u16, nodes: usize, edges: usize, constructs: usize) -> Vec<u8> {
    let back = [nodes + edges + constructs, edges + constructs, constructs];
    let count = constructs / construct_bytes(edition);
    let counts = [edition.into(), nodes / 4, edges / 2, count];
    let fields = counts.into_iter().chain(back.map(|length| length + 16));
    let bytes = fields.flat_map(|field| (field as u16).to_le_bytes());
    bytes.chain([0x4F, 0x43]).collect()
}

/// The chart of the parts of a line after the name. A `|` before the constructs, in place of a `/`, makes
/// it one of edition 2, with six letters a construct.
fn spelt(line: &str) -> Vec<u8> {
    let edition = if line.contains('|') { 2 } else { 1 };
    let parts: Vec<&str> = line.split(['/', '|']).collect();
    let records: Vec<Vec<u8>> = parts[..3].iter().map(|part| letters(part)).collect();
    let last = match parts.get(3) {
        Some(part) => hexadecimal(part),
        None => {
            let [nodes, edges, constructs] = [0, 1, 2].map(|part| records[part].len());
            trailer(edition, nodes, edges, constructs)
        }
    };
    [records.concat(), last].concat()
}

fn add_chart(text: &mut String, name: &str, chart: &[u8]) {
    match admit(chart) {
        Ok(counts) => {
            let (nodes, barriers, phases) = (counts.nodes, counts.barriers, counts.phases);
            let line = format!("{nodes} nodes {barriers} barriers {phases} phases");
            writeln!(text, "{name} admitted {line}")
        }
        Err(row) => writeln!(text, "{name} refused {row}"),
    }
    .expect("text grows");
}

/// What pairs are asked for: a region, and the size of a team where one is given.
#[derive(Clone, Copy)]
struct Asked {
    region: u8,
    size: Option<u16>,
}

fn add_pair(text: &mut String, chart: &[u8], asked: Asked, pair: &[u8]) {
    let (a, b) = (pair[0], pair[1]);
    let (region, u, v) = (asked.region.into(), a.into(), b.into());
    let mut within = match asked.region {
        OUTERMOST => String::new(),
        named => format!(" in region {named}"),
    };
    let number = match asked.size {
        None => calls::pair(chart, region, u, v),
        Some(size) => {
            write!(within, " in a team of {size}").expect("text grows");
            sizes::pair(chart, region, size.into(), u, v)
        }
    };
    match number {
        0.. => writeln!(text, "  pair {a} {b}{within} answered {number}"),
        _ => writeln!(text, "  pair {a} {b}{within} refused {}", -number),
    }
    .expect("text grows");
}

/// Pairs of the outermost region for teams of any size, behind an `@` those of the region that a letter
/// names, and behind a `*` those for the size that two letters spell, the low byte first.
fn add_pairs(text: &mut String, chart: &[u8], line: &str) {
    let mut asked = Asked {
        region: OUTERMOST,
        size: None,
    };
    for part in line.split_inclusive(['@', '*']).scan(' ', |sign, part| {
        let spelt = part.trim_end_matches(['@', '*']);
        let before = std::mem::replace(sign, part.chars().last().unwrap_or(' '));
        Some((before, letters(spelt)))
    }) {
        let pairs = match part {
            ('@', spelt) => {
                asked.region = spelt[0];
                spelt[1..].to_vec()
            }
            ('*', spelt) => {
                asked.size = Some(u16::from_le_bytes([spelt[0], spelt[1]]));
                spelt[2..].to_vec()
            }
            (_, spelt) => spelt,
        };
        for pair in pairs.chunks(2) {
            add_pair(text, chart, asked, pair);
        }
    }
}

fn add_spelt(text: &mut String) {
    let mut chart = Vec::new();
    for line in stored("stdin").lines() {
        let line = line.split('#').next().expect("the part before a comment");
        if let Some(pairs) = line.strip_prefix('?') {
            add_pairs(text, &chart, pairs);
        } else if line.contains('/') {
            let (name, parts) = line.split_once('/').expect("a name and parts");
            chart = spelt(parts);
            add_chart(text, name.trim(), &chart);
        }
    }
}

/// The chart of Start, what `add` adds, and Finish, with the edges of the row.
fn framed(add: impl Fn(&mut ChartBuilder)) -> ChartBuilder {
    let mut chart = ChartBuilder::new();
    chart.barrier();
    add(&mut chart);
    chart.barrier();
    chart.row();
    chart
}

fn plain(count: usize) -> ChartBuilder {
    framed(|chart| {
        for _ in 0..count {
            chart.plain(Construct::NONE);
        }
    })
}

/// Edges from the first 32 nodes to nodes 1 to 32, so many of them.
fn grid(count: usize) -> ChartBuilder {
    let mut chart = plain(31);
    chart.edges.clear();
    for k in 0..count {
        chart.edge(k / 32, k % 32 + 1);
    }
    chart
}

fn criticals(count: usize) -> ChartBuilder {
    framed(|chart| {
        for _ in 0..count {
            let critical = chart.construct(Construct::CRITICAL, Construct::NONE, 0);
            chart.begin(critical);
            chart.end(critical);
        }
    })
}

fn barriers(count: usize) -> ChartBuilder {
    framed(|chart| {
        for _ in 0..count {
            chart.barrier();
        }
    })
}

fn barriers_of_a_region(count: usize) -> ChartBuilder {
    one_region(|chart, region| {
        for _ in 0..count {
            chart.barrier_of(region);
        }
    })
}

fn add_limits(text: &mut String) {
    for (name, chart) in [
        ("nodes-192", plain(190)),
        ("nodes-193", plain(191)),
        ("edges-1024", grid(1024)),
        ("edges-1025", grid(1025)),
        ("constructs-48", criticals(48)),
        ("constructs-49", criticals(49)),
        ("barriers-64", barriers(62)),
        ("barriers-65", barriers(63)),
        ("region-barriers-64", barriers_of_a_region(62)),
        ("region-barriers-65", barriers_of_a_region(63)),
    ] {
        add_chart(text, name, &chart.bytes());
    }
    add_chart(text, "bytes-3120", &longest());
}

#[test]
fn stored_output() {
    let mut text = String::new();
    add_spelt(&mut text);
    add_limits(&mut text);
    for (ours, theirs) in text.lines().zip(stored("stdout").lines()) {
        assert_eq!(ours, theirs);
    }
    assert_eq!(text.lines().count(), stored("stdout").lines().count());
}
