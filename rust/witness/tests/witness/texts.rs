//! What a person reads of sample regions, as stored in tests/expected: behind each line `$ SAMPLE A B [region=N] [size=N] [all]` what
//! is told of these nodes. With STORE=1 in the environment it is stored anew, for a person to read what changed.

use bohrali::{Region, Size};
use charts::random::Random;
use region::Table;
use std::{env, fs};
use witness::view::View;
use witness::{wrapped, Naming, Why, Witnesses, WIDTH};

const FOLDER: &str = concat!(env!("CARGO_MANIFEST_DIR"), "/tests");

/// What is told for the words of such a line.
fn told(words: &[&str]) -> Vec<String> {
    let number = |text: &str| text.parse::<usize>().expect("a number");
    let option = |name: &str| words.iter().find_map(|x| x.strip_prefix(name)).map(number);
    let text = fs::read(format!("{FOLDER}/samples/{}.csv", words[0])).expect("a sample");
    let table = Table::read(&text).expect("a region table");
    let bytes = table.chart.encode();
    let region = option("region=").map_or(Region::Outermost, Region::Parallel);
    let view = View::read(&bytes, region).expect("a region");
    let naming = Naming {
        view: &view,
        table: &table,
    };
    let (size, a, b) = (
        option("size=").map(Size),
        number(words[1]),
        number(words[2]),
    );
    let why = Why::of(&naming, &mut Witnesses::new(&view), size, a, b).expect("an answer");
    why.lines(&naming, words.contains(&"all"))
}

#[test]
fn texts_are_those_stored() {
    for name in ["nevers", "runs", "folded"] {
        let path = format!("{FOLDER}/expected/{name}.txt");
        let stored = fs::read_to_string(&path).expect("a stored text");
        let mut made = String::new();
        for line in stored.lines().filter_map(|line| line.strip_prefix("$ ")) {
            let words: Vec<&str> = line.split(' ').collect();
            let lines = told(&words);
            assert!(lines.iter().all(|x| x.chars().count() <= WIDTH), "{line}");
            made += &format!("$ {line}\n{}\n\n", lines.join("\n"));
        }
        if env::var_os("STORE").is_some() {
            fs::write(&path, &made).expect("the file is stored");
            continue;
        }
        assert!(made == stored, "{path} differs:\n{made}");
    }
}

#[test]
fn every_text_fits() {
    let mut random = Random::new(2_026_111_740);
    for _ in 0..150 {
        let bytes = crate::generated::drawn(&mut random);
        let view = View::read(&bytes, Region::Outermost).expect("a chart");
        let mut table = Table::of(view.chart.clone());
        let long = "a_path/with_no_blank_that_is_wider_than_any_column/of_the_table.c:1234 and, behind it, words";
        for place in &mut table.places {
            *place = long[..random.below(long.len())].into();
        }
        let naming = Naming {
            view: &view,
            table: &table,
        };
        let open: Vec<usize> = (0..view.nodes()).filter(|&v| view.is_open(v)).collect();
        let size = random.pick(&[None, None, Some(Size(3)), Some(Size(8)), Some(Size(9))]);
        let all = random.percent(50);
        if open.is_empty() {
            continue;
        }
        let (a, b) = (random.pick(&open), random.pick(&open));
        let why = Why::of(&naming, &mut Witnesses::new(&view), size, a, b).expect("an answer");
        for line in why.lines(&naming, all) {
            assert!(line.chars().count() <= WIDTH, "{line}");
        }
    }
}

#[test]
fn texts_are_wrapped_at_blanks() {
    assert_eq!(wrapped("one two three", 7, 0), ["one two", "three"]);
    assert_eq!(
        wrapped("one two three", 6, 2),
        ["one", "  two", "  three"[..6].trim_end(), "  e"]
    );
    assert_eq!(wrapped("", 5, 0), [""]);
}
