//! Every slip of docs/REGION-TABLE.md in headings and cells, with the message that it gets.

mod slips;

use region::Table;
use slips::{edited, expect, refused, GAME};

#[test]
fn the_table_itself_is_taken() {
    assert!(Table::read(GAME.as_bytes()).is_ok());
}

#[test]
fn headings() {
    expect(
        &[("inside,next", "insid,next")],
        "row 1, column D: heading 'insid' found, 'inside' expected; the headings are node, kind, construct, inside, next, where, in this order",
        0,
    );
    expect(
        &[("where\n", "where,owner\n")],
        "row 1, column G: heading 'owner' is none of the table's; a column of your own has a heading that begins with 'note'",
        0,
    );
    expect(
        &[("where\n", "where,note,tag\n")],
        "row 1, column H: heading 'tag' stands in column G alone, before columns of your own",
        0,
    );
    let empty =
        "row 1: the file is empty; a heading 'node,kind,construct,inside,next,where' is expected";
    assert_eq!(refused("\n\n").0, empty);
    let few = "row 1: 1 rows found under the heading, 2 to 192 expected";
    assert_eq!(
        refused("node,kind,construct,inside,next,where\n0,barrier,,,,\n").0,
        few
    );
}

#[test]
fn node_numbers() {
    expect(
        &[("\n4,plain,,1,5,", "\n44,plain,,1,5,")],
        "row 6, column node (A): '44' found, 4 expected: nodes are numbered 0, 1, 2, .. from the first row down; 'tidy' numbers them again",
        0,
    );
    expect(
        &[("\n4,plain,,1,5,", "\n,plain,,1,5,x\n4,plain,,1,5,")],
        "row 6, column node (A): nothing found, 4 expected: nodes are numbered 0, 1, 2, .. from the first row down; 'tidy' numbers them again",
        0,
    );
    expect(
        &[("\n4,plain", "\n,,,,,\n4,plain")],
        "row 6: the row is empty; rows under the heading follow without a gap",
        1,
    );
    let row = |x: usize| format!("{x},plain,,,{},\n", x + 1);
    let rows: String = (0..193).map(row).collect();
    let text = format!("node,kind,construct,inside,next,where\n{rows}");
    let message = "row 194: this is row 193 under the heading, and a region has at most 192 nodes";
    assert_eq!(refused(&text).0, message);
}

#[test]
fn kinds() {
    let expected = "plain, barrier, single, master, masked F, critical NAME, do, ordered, sections, section, parallel, end";
    let found = |what: &str| format!("row 6, column kind (B): {what}; expected: {expected}");
    expect(&[("4,plain", "4,plan")], &found("'plan' found"), 0);
    expect(&[("4,plain", "4,")], &found("nothing found"), 0);
    expect(
        &[("8,do,", "8,for,")],
        "row 10, column kind (B): 'for' found; the loop that OpenMP shares out is called 'do' here, as in Fortran",
        0,
    );
    expect(
        &[("35,masked 2", "35,masked")],
        "row 37, column kind (B): 'masked' found, 'masked F' expected with the number of the one thread that goes in, 0 to 65535",
        0,
    );
    expect(
        &[("35,masked 2", "35,master 2")],
        "row 37, column kind (B): 'master 2' found, 'master' alone expected, or 'masked F' for thread F",
        0,
    );
    expect(
        &[("critical deck", "critical deck lock")],
        "row 5, column kind (B): 'critical deck lock' found, 'critical' or 'critical NAME' expected, the name one word of letters, digits and _",
        0,
    );
    expect(
        &[("2,single", "2,single nowait")],
        "row 4, column kind (B): 'single nowait' found, 'single' alone expected",
        0,
    );
    expect(
        &[("0,barrier", "0,start")],
        "row 2, column kind (B): 'start' found; the first and last rows are barriers, and a begin has the name of its construct, as 'single'",
        0,
    );
}

#[test]
fn cells() {
    expect(
        &[("2,single,0,,", "2,single,,,")],
        "row 4, column construct (C): nothing found, the construct's own number expected: 0 to 47, the same in its begin row and its end row",
        0,
    );
    expect(
        &[("2,single,0,,", "2,single,48,,")],
        "row 4, column construct (C): '48' found, a number from 0 to 47 expected",
        0,
    );
    expect(
        &[("4,plain,,1,", "4,plain,1,,")],
        "row 6, column construct (C): '1' found on a plain; only begins and ends have a number of their own. The construct around a node stands in 'inside'",
        0,
    );
    expect(
        &[("4,plain,,1,", "4,plain,,one,")],
        "row 6, column inside (D): 'one' found, the number of the construct around, or nothing, expected",
        0,
    );
}

#[test]
fn text_of_cells() {
    expect(
        &[("playtest.c:14", "=A1")],
        "row 3, column where (F): the text begins with '=', which a spreadsheet would take for a formula",
        0,
    );
    expect(
        &[("playtest.c:14", "\"playtest.c:14")],
        "row 3, column where (F): a quotation mark is opened and not closed in this row",
        0,
    );
    expect(
        &[("playtest.c:14", "\"play\"test.c:14")],
        "row 3, column where (F): text after a closing quotation mark",
        0,
    );
    expect(
        &[
            ("where\n", "where,tag\n"),
            ("playtest.c:14", "playtest.c:14,x"),
        ],
        "row 3, column G: 'x' found, a tag from 0 to 65535 or nothing expected",
        0,
    );
}

#[test]
fn successors() {
    expect(
        &[("1,plain,,,2 39,playtest.c:14", "1,plain,,,2,39,playtest.c:14")],
        "row 3, column G: 'playtest.c:14' stands right of the last heading; successors in 'next' are separated by blanks, and text with the separator in it is quoted",
        1,
    );
    expect(
        &[("1,plain,,,2 39,playtest.c:14", "1,plain,,,2,39")],
        "row 3, column where (F): '39' is a number alone; successors stand in 'next', separated by blanks, and a source line has its file, as file.c:12",
        0,
    );
    expect(
        &[("2 39", "2 40")],
        "row 3, column next (E): node 40 is named, and the last node is 39",
        0,
    );
    expect(
        &[("2 39", "2 four")],
        "row 3, column next (E): 'four' found, node numbers separated by blanks expected",
        0,
    );
    expect(
        &[("2 39", "2 below")],
        "row 3, column next (E): 'below' found; 'tidy' makes it the number of the row underneath",
        0,
    );
    expect(
        &[("2 39", "2 2 39")],
        "row 3, column next (E): node 2 is named twice",
        0,
    );
}

#[test]
fn twenty_problems_are_told_and_the_others_counted() {
    let text = GAME
        .replace(",plain,", ",plan,")
        .replace(",barrier,", ",barier,")
        .replace(",end,", ",ende,");
    let wrong = Table::read(text.as_bytes()).unwrap_err();
    assert_eq!((wrong.problems.len(), wrong.more), (20, 8));
    assert!(wrong.to_string().ends_with("\nand 8 more"));
    assert!(wrong.problems.iter().map(|x| x.row).is_sorted());
}

#[test]
fn what_is_found_is_shown_on_one_short_line() {
    let long = "x".repeat(5000);
    let (message, _) = refused(&edited(&[("4,plain", &format!("4,{long}\u{1b}[31m"))]));
    assert!(
        message.len() < 300 && message.contains("xx..'"),
        "{message}"
    );
    let (message, _) = refused(&edited(&[("4,plain", "4,a\u{1b}b\u{0}")]));
    assert!(message.contains("'a\\u{1b}b\\u{0}' found"), "{message}");
}
