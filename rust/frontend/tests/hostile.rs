//! Flows that are old, cut off or made up to do harm: a clear error, and never a panic.

mod common;

use charts::random::Random;
use frontend::{Notes, Problem, Program};
use std::fs;

fn read(text: &[u8]) -> Result<Program, Vec<Problem>> {
    Program::of(&[("a.flow", text)])
}

#[track_caller]
fn told(text: &str) -> String {
    match read(text.as_bytes()) {
        Ok(_) => panic!("the flow is taken: {text}"),
        Err(problems) => problems[0].to_string(),
    }
}

/// A flow with these rows in a function.
fn function(rows: &str) -> String {
    format!("bohrali-flow 1\nunit a.c\nfile 0 a.c\nfunction 0 f 0:1\n{rows}end\ncomplete 1\n")
}

const ENDS: &str = "node 0 entry -1\nnode 1 exit -1\n";

#[test]
fn what_is_no_flow() {
    let cases = [
        ("", "a.flow: the flow is empty"),
        ("\n", "a.flow, row 1: this is no flow: 'bohrali-flow 1' is expected"),
        ("bohrali-flow 2\n", "a.flow, row 1: this is a flow of version 2, and version 1 is read: compile with the plugin of this release"),
        ("bohrali-flow 1\n", "a.flow: the flow is cut off: its last row is not 'complete'; compile the unit again"),
        ("bohrali-flow 1\nunit a.c\ncomplete 1\n", "a.flow, row 3: 1 functions are said to be there, and there are 0"),
        ("bohrali-flow 1\nunit a.c\ncomplete 0\nalias a b\n", "a.flow, row 4: a row stands behind 'complete'"),
        ("bohrali-flow 1\nunit a.c\ncomplete 0", "a.flow: the flow is cut off: its last row is not 'complete'; compile the unit again"),
        ("bohrali-flow 1\nunit a b\n", "a.flow, row 2: 'b' found, and the row should end"),
        ("bohrali-flow 1\nunit ä\n", "a.flow: this is no flow: it holds bytes that are no ASCII"),
        ("bohrali-flow 1\nunit a.c\nregion 1\n", "a.flow, row 3: 'region' is no row of a flow"),
    ];
    for (text, message) in cases {
        assert_eq!(told(text), message);
    }
}

#[test]
fn a_flow_has_one_hash_of_what_it_says() {
    let rows = "bohrali-flow 1\nunit a.c\n";
    let sum = frontend::hash(rows.as_bytes());
    let whole = format!("{rows}hash {sum}\ncomplete 0\n");
    let units = read(whole.as_bytes()).expect("a flow").units();
    assert_eq!(units.units[0].hash, Some(sum.clone()));
    let cases = [
        (
            whole.replace("a.c", "b.c"),
            "row 3: the flow was changed after it was written; compile the unit again",
        ),
        (
            whole.replace(&sum, "0"),
            "row 3: the flow was changed after it was written; compile the unit again",
        ),
        (
            whole.replace(&sum, ""),
            "row 3: a hash expected, and the row ends",
        ),
        (
            whole.replace("complete", &format!("hash {sum}\ncomplete")),
            "row 4: a second hash",
        ),
    ];
    for (text, message) in cases {
        assert_eq!(told(&text), format!("a.flow, {message}"));
    }
    assert_eq!(
        read(b"bohrali-flow 1\nunit a.c\ncomplete 0\n")
            .expect("a flow")
            .units()
            .units[0]
            .hash,
        None
    );
}

#[test]
fn what_is_no_function() {
    let cases = [
        ("", "row 5: a function has one entry and one exit, outside all directives"),
        ("node 1 entry -1\n", "row 5: number 1 found, 0 expected: they follow one another from 0"),
        ("node 0 entry 0\n", "row 5: directive 0 is named, and there are 0"),
        ("node 0 door -1\n", "row 5: 'door' is not known here"),
        ("dir 0 single 0 0:1\n", "row 5: directive 0 is named, and there are 0"),
        ("dir 0 single -1 1:1\n", "row 5: file 1 is named, and there are 1"),
        ("dir 0 single -1 0:1 loud\n", "row 5: 'loud' is nothing that a directive has"),
        ("node 0 call -1\n", "row 5: opens and closes name a directive with of=, calls a routine with callee=, and no others do"),
        ("edge 0 1\n", "row 5: node 0 is named, and there are 0"),
        ("swim\n", "row 5: 'swim' is no row of a function, which 'end' ends"),
    ];
    for (rows, message) in cases {
        assert_eq!(told(&function(rows)), format!("a.flow, {message}"));
    }
    let framed = [
        ("dir 0 single -1 0:1\n", "a directive is never opened"),
        ("edge 0 1\nedge 0 1\n", "edges rise by their two nodes"),
        (
            "edge 1 1\n",
            "an edge leads into the entry or out of the exit",
        ),
    ];
    for (rows, message) in framed {
        let text = match rows.starts_with("dir") {
            true => function(&format!("{rows}{ENDS}")),
            false => function(&format!("{ENDS}{rows}")),
        };
        assert!(told(&text).ends_with(message), "{}", told(&text));
    }
}

#[test]
fn every_cut_is_seen() {
    for flow in common::stored_flows() {
        let bytes = fs::read(&flow).expect("a flow");
        for length in (0..bytes.len()).step_by(7).chain([bytes.len() - 1]) {
            assert!(
                read(&bytes[..length]).is_err(),
                "{} of {}",
                length,
                flow.display()
            );
        }
    }
}

/// Cells of rows changed for others, bytes for others, and rows left out or said twice.
fn damaged(random: &mut Random, text: &str) -> String {
    let mut rows: Vec<String> = text.lines().map(Into::into).collect();
    for _ in 0..random.between(1, 4) {
        let row = random.below(rows.len());
        match random.below(4) {
            0 => _ = rows.remove(row),
            1 => rows.insert(row, rows[random.below(rows.len())].clone()),
            2 => {
                let other = rows[random.below(rows.len())].clone();
                let others: Vec<&str> = other.split(' ').collect();
                let mut cells: Vec<&str> = rows[row].split(' ').collect();
                let place = random.below(cells.len());
                cells[place] = random.pick(&others);
                rows[row] = cells.join(" ");
            }
            _ => {
                let number = random.below(100).to_string();
                rows[row] = rows[row].replacen(char::is_numeric, &number, 1);
            }
        }
        if rows.is_empty() {
            break;
        }
    }
    rows.join("\n") + "\n"
}

#[test]
fn damaged_flows_are_refused_or_read() {
    let mut random = Random::new(38);
    let mut taken = 0;
    for flow in common::stored_flows() {
        let text = fs::read_to_string(&flow).expect("a flow");
        for _ in 0..100 {
            if let Ok(program) = read(damaged(&mut random, &text).as_bytes()) {
                let (regions, notes) = program.regions();
                taken += 1;
                for notes in regions.iter().map(|x| &x.notes).chain([&notes]) {
                    let again = Notes::read("a.txt", notes.write().as_bytes());
                    assert_eq!(again.expect("notes").write(), notes.write());
                }
                for table in regions.iter().filter_map(|x| x.table.as_ref()) {
                    assert!(bohrali::admit(&table.chart.encode()).is_ok());
                }
            }
        }
    }
    assert!(taken > 100, "{taken} were taken");
}

#[test]
fn many_calls_come_to_an_end() {
    // Each routine calls the one before it twice and has a barrier: opened all the way they would be 2^30.
    let mut text = String::from("bohrali-flow 1\nunit a.c\nfile 0 a.c\n");
    for number in 0..30usize {
        let callee = number.saturating_sub(1);
        text += &format!("function {number} f{number} 0:1 public\n{ENDS}");
        text += &format!("node 2 call -1 callee=f{callee} 0:2\nnode 3 call -1 callee=f{callee} 0:3\nnode 4 barrier -1 0:4\n");
        text += "edge 0 2\nedge 2 3\nedge 3 4\nedge 4 1\nend\n";
    }
    text += &format!("function 30 main 0:1 public\ndir 0 parallel -1 0:9\n{ENDS}");
    text += "node 2 open -1 of=0 0:9\nnode 3 call 0 callee=f29 0:10\nnode 4 close -1 of=0\n";
    text += "edge 0 2\nedge 2 3\nedge 3 4\nedge 4 1\nend\ncomplete 31\n";
    let (regions, _) = read(text.as_bytes()).expect("a flow").regions();
    assert!(regions[0].table.is_some());
}
