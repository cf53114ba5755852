//! What the replay's times rest on: both inputs are as long as an input can be, what is printed for them differs in
//! its first line alone, and the tuned version prints it too.

use bench::replay::{tuned_text, Subject, TEAMS};
use charts::benchmark::rings;
use reference::replay::text;

#[test]
fn inputs_differ_in_what_is_replayed_alone() {
    for (name, chart) in rings() {
        for team in TEAMS {
            let Subject { inputs, entries } = Subject::new(&chart, team);
            let [first, all] = inputs.each_ref().map(|input| text(input));
            let lengths = inputs.each_ref().map(Vec::len);
            assert_eq!(
                lengths,
                [4 + 65_534 + chart.len(); 2],
                "{name}, team {team}"
            );
            let (index, lines) = first.split_once('\n').expect("lines");
            let (last, same) = all.split_once('\n').expect("lines");
            let number = |line: &str| {
                let index = line.strip_prefix("forbidden ").expect("an index");
                index.parse::<usize>().expect("a number")
            };
            assert_eq!(number(index) + entries, number(last), "{name}, team {team}");
            assert!(entries > 16_000, "{name}, team {team}: {entries}");
            assert_eq!(lines, same, "{name}, team {team}");
            let tuned = inputs.each_ref().map(|input| tuned_text(input));
            assert_eq!(tuned, [first.clone(), all.clone()], "{name}, team {team}");
        }
    }
}
