//! The answers that programs with marked lines are to have: `@x` marks a line, `EXPECT x y never` says what
//! is expected of two. The flows are those in tests/flows, or in the directory that BOHRALI_FLOWS names.

mod common;

use common::{asked, expectations, flow_files, Expectation};
use frontend::Verdict;

fn word(verdict: Verdict) -> &'static str {
    match verdict {
        Verdict::Never => "never",
        Verdict::Together => "meet",
        Verdict::NoAnswer => "none",
    }
}

/// The expectations of these programs that are not met, and how many are asked for.
fn differing(level: &str, programs: &[&str]) -> (Vec<String>, usize) {
    let flows = flow_files(level, programs);
    if flows.len() < programs.len() {
        return (Vec::new(), 0);
    }
    let scratch = common::Scratch::new();
    let directory = scratch.directory(&flows);
    let wanted: Vec<Expectation> = programs.iter().flat_map(|x| expectations(x)).collect();
    let differs = |x: &Expectation| {
        let found = asked(&directory, &x.lines[0], &x.lines[1]);
        let is_met = word(found.verdict) == x.verdict;
        (!is_met).then(|| format!("{level} {x:?}: {found:?}"))
    };
    (wanted.iter().filter_map(differs).collect(), wanted.len())
}

#[test]
fn every_expected_answer_is_given() {
    let mut programs: Vec<Vec<&str>> = common::PROGRAMS.iter().map(|&x| vec![x]).collect();
    programs.push(common::UNITS.to_vec());
    let mut count = 0;
    let mut wrong = Vec::new();
    for level in ["O0", "O2"] {
        for group in &programs {
            let (differing, asked) = differing(level, group);
            wrong.extend(differing);
            count += asked;
        }
    }
    assert!(wrong.is_empty(), "{}", wrong.join("\n"));
    let is_stored = std::env::var_os("BOHRALI_FLOWS").is_none();
    assert!(!is_stored || count == 168, "{count} answers were asked for");
}

#[test]
fn a_file_may_be_named_by_an_end_of_its_path() {
    let scratch = common::Scratch::new();
    let directory = scratch.directory(&flow_files("O2", &["hand/h1.c"]));
    let verdict = |file: &str| {
        let lines = region::Lines {
            file: file.into(),
            first: 23,
            last: 23,
        };
        asked(&directory, &lines, &lines).verdict
    };
    for file in ["h1.c", "hand/h1.c", "./hand/h1.c", "/src/hand/h1.c"] {
        assert_eq!(verdict(file), Verdict::Never, "{file}");
    }
    for file in ["1.c", "h2.c", "other/h1.c", ""] {
        assert_eq!(verdict(file), Verdict::NoAnswer, "{file}");
    }
}
