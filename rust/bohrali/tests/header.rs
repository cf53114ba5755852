//! The constants of include/bohrali.h are those of this crate: all of them, by the same words and
//! with the same numbers.

use bohrali::layout::{self, ConstructKind, NodeKind};
use bohrali::{limits, Access, AccessKind, Answer, Lock, Race, Refusal, Region};
use std::collections::BTreeMap;
use std::{fs, path::PathBuf};

const LIMITS: [(&str, usize); 13] = [
    ("LEAST_NODES", limits::LEAST_NODES),
    ("MOST_NODES", limits::MOST_NODES),
    ("LEAST_EDGES", limits::LEAST_EDGES),
    ("MOST_EDGES", limits::MOST_EDGES),
    ("MOST_CONSTRUCTS", limits::MOST_CONSTRUCTS),
    ("MOST_BARRIERS", limits::MOST_BARRIERS),
    ("MOST_DEPTH", limits::MOST_DEPTH),
    ("LEAST_SIZE", limits::LEAST_SIZE),
    ("MOST_SIZE", limits::MOST_SIZE),
    ("MOST_THREADS", limits::MOST_THREADS),
    ("MOST_ACCESSES", limits::MOST_ACCESSES),
    ("MOST_RACES", limits::MOST_RACES),
    ("MOST_CHART_BYTES", limits::MOST_CHART_BYTES),
];

const LAYOUT: [(&str, usize); 27] = [
    ("BYTES_NODE", layout::BYTES_NODE),
    ("BYTES_EDGE", layout::BYTES_EDGE),
    ("BYTES_CONSTRUCT", layout::BYTES_CONSTRUCT),
    ("BYTES_CONSTRUCT_2", layout::BYTES_CONSTRUCT_2),
    ("BYTES_TRAILER", layout::BYTES_TRAILER),
    ("BYTES_ACCESS", layout::BYTES_ACCESS),
    ("BYTES_ENTRY", layout::BYTES_ENTRY),
    ("BYTES_PHASES", layout::BYTES_PHASES),
    ("DISTANCE_AT_BARRIER", layout::DISTANCE_AT_BARRIER as usize),
    ("TRAILER_EDITION", layout::TRAILER_EDITION as usize),
    ("TRAILER_EDITION_2", layout::TRAILER_EDITION_2 as usize),
    ("TRAILER_CLOSING", layout::TRAILER_CLOSING as usize),
    ("NODE_PLAIN", NodeKind::Plain as usize),
    ("NODE_BARRIER", NodeKind::Barrier as usize),
    ("NODE_BEGIN", NodeKind::Begin as usize),
    ("NODE_END", NodeKind::End as usize),
    ("CONSTRUCT_SINGLE", ConstructKind::Single as usize),
    ("CONSTRUCT_MASTER", ConstructKind::Master as usize),
    ("CONSTRUCT_CRITICAL", ConstructKind::Critical as usize),
    ("CONSTRUCT_DO", ConstructKind::Do as usize),
    ("CONSTRUCT_ORDERED", ConstructKind::Ordered as usize),
    ("CONSTRUCT_SECTIONS", ConstructKind::Sections as usize),
    ("CONSTRUCT_SECTION", ConstructKind::Section as usize),
    ("CONSTRUCT_PARALLEL", ConstructKind::Parallel as usize),
    ("CONSTRUCT_NONE", layout::CONSTRUCT_NONE as usize),
    ("ACCESS_READ", AccessKind::Read as usize),
    ("ACCESS_WRITE", AccessKind::Write as usize),
];

const VERSION: [(&str, &str); 3] = [
    ("VERSION_MAJOR", env!("CARGO_PKG_VERSION_MAJOR")),
    ("VERSION_MINOR", env!("CARGO_PKG_VERSION_MINOR")),
    ("VERSION_PATCH", env!("CARGO_PKG_VERSION_PATCH")),
];

const AT_BARRIER: (&str, usize) = ("ANSWER_AT_BARRIER", Answer::AT_BARRIER as usize);
const OUTERMOST: (&str, usize) = ("REGION_OUTERMOST", Region::OUTERMOST);
const NO_CRITICAL: (&str, usize) = ("LOCK_NO_CRITICAL", Lock::NO_CRITICAL as usize);

/// A name such as `NoCommonPhase` as C spells it, `NO_COMMON_PHASE`.
fn spelt(name: &str) -> String {
    let mut words = String::new();
    for letter in name.chars() {
        if letter.is_uppercase() && !words.is_empty() {
            words.push('_');
        }
        words.push(letter.to_ascii_uppercase());
    }
    words
}

/// The constants of this crate, by their names in C without `BOHRALI_`.
fn ours() -> BTreeMap<String, usize> {
    let named = LIMITS
        .iter()
        .chain(&LAYOUT)
        .chain([&AT_BARRIER, &OUTERMOST, &NO_CRITICAL]);
    let named = named.map(|&(name, number)| (name.to_string(), number));
    let answers = Answer::ALL
        .iter()
        .map(|&x| (format!("ANSWER_{}", spelt(&format!("{x:?}"))), x as usize));
    let refusals = Refusal::ALL
        .iter()
        .map(|&x| (format!("REFUSED_{}", spelt(&format!("{x:?}"))), x as usize));
    let races = Race::ALL
        .iter()
        .map(|&x| (format!("RACE_{}", spelt(&format!("{x:?}"))), x as usize));
    let locks = Lock::ALL
        .iter()
        .map(|&x| (format!("LOCK_{}", spelt(&format!("{x:?}"))), x as usize));
    let version = VERSION.map(|(name, text)| (name.to_string(), number(text)));
    let named = named.chain(version).chain(answers).chain(refusals);
    named.chain(races).chain(locks).collect()
}

/// The number of a C constant.
fn number(text: &str) -> usize {
    match text.strip_prefix("0x") {
        Some(digits) => usize::from_str_radix(digits, 16),
        None => text.parse(),
    }
    .unwrap_or_else(|error| panic!("{text}: {error}"))
}

/// The constants of the header: `#define BOHRALI_NAME NUMBER`, or `BOHRALI_NAME = NUMBER,` in an enum.
fn declared() -> BTreeMap<String, usize> {
    let header = PathBuf::from(env!("CARGO_MANIFEST_DIR")).join("../../include/bohrali.h");
    let header = fs::read_to_string(header).expect("the header");
    let mut constants = BTreeMap::new();
    for line in header.lines() {
        let line = line.trim_start();
        let line = line.strip_prefix("#define ").unwrap_or(line);
        let Some(line) = line.strip_prefix("BOHRALI_") else {
            continue;
        };
        let mut words = line.split([' ', '=', ',']).filter(|word| !word.is_empty());
        if let (Some(name), Some(text)) = (words.next(), words.next()) {
            let earlier = constants.insert(name.to_string(), number(text));
            assert_eq!(earlier, None, "{name} is declared twice");
        }
    }
    constants
}

#[test]
fn constants_are_those_of_the_header() {
    assert_eq!(declared(), ours());
}

#[test]
fn version_is_that_of_the_makefile() {
    let makefile = PathBuf::from(env!("CARGO_MANIFEST_DIR")).join("../../Makefile");
    let makefile = fs::read_to_string(makefile).expect("the Makefile");
    let line = makefile.lines().find_map(|x| x.strip_prefix("VERSION := "));
    assert_eq!(line, Some(env!("CARGO_PKG_VERSION")));
}

#[test]
fn all_lists_are_in_the_order_of_the_numbers() {
    for (place, answer) in Answer::ALL.into_iter().enumerate() {
        assert_eq!(answer as usize, place);
    }
    for (place, race) in Race::ALL.into_iter().enumerate() {
        assert_eq!(race as usize, place);
    }
    for (place, lock) in Lock::ALL.into_iter().enumerate() {
        assert_eq!(lock as usize, place);
        assert_eq!(Lock::of(place as u8), Some(lock));
    }
    assert!((3..=255).all(|byte| Lock::of(byte).is_none()));
    let refusals = Refusal::ALL.map(|refusal| refusal.number());
    assert!(refusals.is_sorted_by(|one, next| one < next));
}

#[test]
fn accesses_have_the_bytes_of_c() {
    let list = [Access::write(7, 258), Access::read(255, 65_535)];
    assert_eq!(Access::bytes(&list), [7, 1, 2, 1, 255, 0, 255, 255]);
    assert_eq!(list.map(Access::variable), [258, 65_535]);
    assert_eq!(Access::bytes(&[]), []);
    let most = limits::MOST_ACCESSES;
    assert_eq!(limits::MOST_RACES, most * (most + 1) / 2);
}

#[test]
fn regions_have_the_numbers_of_c() {
    for number in [0, 47, 254, 255, 256, 511, usize::MAX] {
        assert_eq!(Region::from(number).number(), number);
    }
    assert_eq!(Region::from(Region::OUTERMOST), Region::Outermost);
    assert_eq!(Region::default(), Region::Outermost);
}
