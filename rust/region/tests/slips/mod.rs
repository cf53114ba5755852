//! One table, with slips made in it, and what is said of them.

use region::Table;

pub const GAME: &str = include_str!("../tables/game.csv");

/// The table with texts changed, each where it first stands.
pub fn edited(changes: &[(&str, &str)]) -> String {
    let mut text = GAME.to_string();
    for (from, to) in changes {
        assert!(text.contains(from), "{from}");
        text = text.replacen(from, to, 1);
    }
    text
}

/// The first message for a text, and how many more there are.
pub fn refused(text: &str) -> (String, usize) {
    let wrong = Table::read(text.as_bytes()).expect_err(text);
    let told = wrong.problems.len() + wrong.more - 1;
    (wrong.problems[0].to_string(), told)
}

#[track_caller]
pub fn expect(changes: &[(&str, &str)], message: &str, more: usize) {
    assert_eq!(refused(&edited(changes)), (message.to_string(), more));
}
