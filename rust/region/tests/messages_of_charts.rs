//! Every slip of docs/REGION-TABLE.md in constructs, nesting, edges and paths, with the message that it gets.

mod slips;

use region::Table;
use slips::{edited, expect, refused};

#[test]
fn constructs() {
    expect(
        &[("6,end,0,,7", "6,plain,,,7")],
        "row 4, column construct (C): construct 0 (single) has no end: a row 'end' with 0 in 'construct' is missing",
        0,
    );
    expect(
        &[
            ("2,single,0,,3", "2,plain,,,3"),
            ("3,critical deck,1,0", "3,critical deck,1,"),
            ("5,end,1,0", "5,end,1,"),
        ],
        "row 8, column construct (C): this ends construct 0, and no row begins it",
        1,
    );
    expect(
        &[("13,ordered,4,2", "13,ordered,3,2")],
        "row 15, column construct (C): construct 3 has a second begin here; the first is node 10",
        3,
    );
    expect(
        &[("10,critical scores,3,2", "10,critical scores,30,2"), ("12,end,3,2", "12,end,30,2"), ("11,plain,,3", "11,plain,,30")],
        "row 12, column construct (C): construct 30, and there are 12 constructs: they are numbered 0 to 11 without a gap",
        0,
    );
}

#[test]
fn parents() {
    expect(
        &[("4,plain,,1,", "4,plain,,17,")],
        "row 6, column inside (D): construct 17 is named, and no row begins it",
        0,
    );
    expect(
        &[("15,end,4,2,", "15,end,4,,")],
        "row 17, column inside (D): construct 4 ends inside nothing and begins (node 13) inside 2",
        0,
    );
    expect(
        &[("3,critical deck,1,0", "3,critical deck,1,4"), ("5,end,1,0", "5,end,1,4")],
        "row 5, column inside (D): construct 1 lies inside 4; a construct has a higher number than the one around it",
        0,
    );
}

#[test]
fn nesting() {
    expect(
        &[("11,plain,,3,12", "11,barrier,,3,12")],
        "row 13, column inside (D): a barrier inside construct 3 (critical): a barrier lies outside all constructs of its team, and 'inside' is empty or names a parallel",
        0,
    );
    expect(
        &[("3,critical deck,1,0,", "3,single,1,0,")],
        "row 5, column inside (D): a single is inside no other construct of its team; this one is inside construct 0 (single)",
        0,
    );
    expect(
        &[("13,ordered,4,2,14", "13,ordered,4,,14"), ("15,end,4,2,16", "15,end,4,,16")],
        "row 15, column inside (D): an ordered lies directly inside a do; this one lies inside nothing",
        0,
    );
    expect(
        &[("19,section,6,5", "19,section,6,"), ("21,end,6,5", "21,end,6,")],
        "row 21, column inside (D): a section lies directly inside a sections; this one lies inside nothing",
        0,
    );
    expect(
        &[("19,section,6,5", "19,critical,6,5")],
        "row 21, column inside (D): directly inside a sections, construct 5 (sections), lie only sections; this is a critical",
        0,
    );
    expect(
        &[("20,plain,,6,", "20,plain,,5,")],
        "row 22, column inside (D): directly inside a sections, construct 5 (sections), lie only sections; this is a plain node",
        0,
    );
}

#[test]
fn nesting_of_other_kinds() {
    expect(
        &[("13,ordered,4,2", "13,masked 1,4,2")],
        "row 15, column inside (D): a master or masked is inside criticals only; this one is inside construct 2 (do)",
        0,
    );
    expect(
        &[("2,single,0,", "2,critical deck,0,")],
        "row 5, column inside (D): a critical of the same name is around this one, construct 0 (critical): a thread would wait for itself",
        0,
    );
    expect(
        &[("39,barrier,,,,", "39,barrier,,8,,")],
        "row 41, column inside (D): the first and the last row are barriers of the outermost region: 'inside' is empty",
        0,
    );
    expect(
        &[("0,barrier", "0,plain")],
        "row 2, column kind (B): 'plain' found, 'barrier' expected: the first row is where the team starts",
        0,
    );
    expect(
        &[("39,barrier", "39,plain")],
        "row 41, column kind (B): 'plain' found, 'barrier' expected: the last row is where the team finishes",
        0,
    );
}

#[test]
fn barriers_are_counted_in_each_region() {
    let heading = "node,kind,construct,inside,next,where\n";
    let row = |x: usize, inside: &str| format!("{x},barrier,,{inside},{},\n", x + 1);
    let rows: String = (0..64).map(|x| row(x, "")).collect();
    let outer = format!("{heading}{rows}64,barrier,,,,\n");
    let many = "one barrier too many: a region has at most 64, its first and last node counted";
    assert_eq!(
        refused(&outer).0,
        format!("row 66, column kind (B): {many}")
    );
    let rows: String = (2..65).map(|x| row(x, "0")).collect();
    let inner =
        format!("{heading}0,barrier,,,1,\n1,parallel,0,,2,\n{rows}65,end,0,,66,\n66,barrier,,,,\n");
    assert_eq!(
        refused(&inner).0,
        format!("row 66, column kind (B): {many}")
    );
}

#[test]
fn edges() {
    expect(
        &[("9,plain,,2,10 13", "9,plain,,2,")],
        "row 11, column next (E): nothing found; every node but the last leads somewhere",
        0,
    );
    expect(
        &[("39,barrier,,,,", "39,barrier,,,1,")],
        "row 41, column next (E): the last node leads nowhere: 'next' is empty",
        0,
    );
    expect(
        &[("9,plain,,2,10 13", "9,plain,,2,10 14")],
        "row 11, column next (E): from node 9, inside construct 2 (do), to node 14, inside construct 4 (ordered): a construct is entered at its begin and left at its end alone",
        0,
    );
    expect(
        &[("11,plain,,3,12", "11,plain,,3,12 16")],
        "row 13, column next (E): from node 11, inside construct 3 (critical), to node 16, inside construct 2 (do): a construct is entered at its begin and left at its end alone",
        0,
    );
    expect(
        &[("1,plain,,,2 39", "1,plain,,,2 9 39")],
        "row 3, column next (E): from node 1, outside all constructs, to node 9, inside construct 2 (do): a construct is entered at its begin and left at its end alone",
        0,
    );
    expect(
        &[("21,end,6,5,33", "21,end,6,5,22 33")],
        "row 23, column next (E): a section's end leads to the end of its sections (node 33), not to a section's begin (node 22)",
        0,
    );
    expect(
        &[("38,barrier,,,1,", "38,barrier,,,0,")],
        "row 40, column next (E): node 0 is where the team starts, and no node leads to it",
        0,
    );
}

#[test]
fn paths() {
    expect(
        &[("9,plain,,2,10 13", "9,plain,,2,13")],
        "row 12, column node (A): no path leads from node 0 to node 10: some row's 'next' should name it",
        2,
    );
    let (message, _) = refused(&edited(&[("2 39", "2")]));
    assert_eq!(
        message,
        "row 2, column next (E): no path leads from node 0 to the last node, 39"
    );
}

#[test]
fn a_stage_that_has_a_chart_has_the_number_of_the_refusal() {
    let refusal = |changes: &[(&str, &str)]| {
        let wrong = Table::read(edited(changes).as_bytes()).unwrap_err();
        wrong.refusal.map(|x| x.number())
    };
    assert_eq!(refusal(&[("4,plain", "4,plan")]), None);
    assert_eq!(refusal(&[("11,plain,,3,12", "11,barrier,,3,12")]), Some(5));
    assert_eq!(
        refusal(&[("3,critical deck,1,0,", "3,single,1,0,")]),
        Some(6)
    );
    assert_eq!(refusal(&[("0,barrier", "0,plain")]), Some(8));
    assert_eq!(refusal(&[("38,barrier,,,1,", "38,barrier,,,0,")]), Some(9));
    assert_eq!(refusal(&[("9,plain,,2,10 13", "9,plain,,2,13")]), Some(10));
}
