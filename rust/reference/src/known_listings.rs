//! Listings with known results (02, Note 2), worked out by hand.

/// A listing, what the call returns for it where there is room, and what Admit then gives of the chart written; 0
/// where nothing is.
pub type Known = (String, i64, i64);

/// Length and Admit's number of charts that are written.
const WRITTEN: [(&str, i64, i64); 30] = [
    ("", 26, 514),
    ("s", 32, 66_051),
    ("b", 32, 771),
    ("l{}", 34, 66_051),
    ("l{s}", 40, 66_052),
    ("l{b}", 40, 262_916),
    ("l{l{}}", 42, 66_052),
    ("l{l{b}}", 48, 262_917),
    ("i{}{}", 38, 66_052),
    ("i{s}{}", 46, 66_053),
    ("i{s}{b}", 52, 197_382),
    ("i{S{}}{}", 62, 197_383),
    ("i{i{}{}}{i{}{}}", 64, 66_056),
    ("i{}{ss}l{i{}{}b}", 78, 262_922),
    ("S{}", 48, 66_309),
    ("S{}n", 42, 66_052),
    ("S{s}nS{s}", 76, 66_313),
    ("S{i{}{s}}l{b}", 82, 328_714),
    ("M{s}", 48, 66_053),
    ("M{C{}}", 58, 66_054),
    ("C{s}", 48, 66_053),
    ("C{M{}}", 58, 66_054),
    ("C{i{s}{l{}}}", 70, 66_056),
    ("D{O{s}}", 70, 66_312),
    ("D{O{s}}n", 64, 66_055),
    ("D{O{}O{}}", 80, 66_313),
    ("D{O{s}C{l{s}}}", 100, 66_316),
    ("l{S{}nC{M{}}}", 82, 66_057),
    ("l{i{l{}}{}}M{l{}}", 80, 66_057),
    ("M{s}C{s}", 70, 66_056),
];

/// Listings that are refused, by number.
const REFUSED: [(i64, &[&str]); 3] = [
    (5, &["C{S{}}", "D{b}", "S{l{b}}", "D{D{}}", "C{b}", "O{b}"]),
    (
        6,
        &[
            "C{C{}}",
            "C{M{C{}}}",
            "C{S{}n}",
            "D{D{}n}",
            "D{S{}n}",
            "M{D{}n}",
            "O{}",
            "C{O{}}",
            "D{C{O{}}}",
        ],
    ),
    (
        14,
        &[
            "n", "S{}nn", "M{}n", "l{}n", "C{}n", "O{}n", "i{}{}n", "sn", "i{}", "i{}s{}",
            "i{}n{}", "i{s}{b", "{", "}", "S", "S{", "l{s", "l", "S {}", " s", "s\n", "x",
            "l{l{}}}", "{}", "s{}", "S{n}", "Sn{}", "b}b", "L{}", "\0", "\u{80}",
        ],
    ),
];

pub fn known() -> Vec<Known> {
    let written = WRITTEN.map(|(text, length, counts)| (text.to_string(), length, counts));
    let refused = REFUSED.into_iter().flat_map(|(number, texts)| {
        let refused = move |text: &&str| (text.to_string(), -number, 0);
        texts.iter().map(refused)
    });
    written
        .into_iter()
        .chain(refused)
        .chain(repeated())
        .collect()
}

/// So many blocks, each in the next, around something.
pub fn nested(letter: &str, times: usize, inside: &str) -> String {
    let opened = format!("{letter}{{").repeat(times);
    format!("{opened}{inside}{}", "}".repeat(times))
}

/// At the limits, and where one refusal stands behind another.
fn repeated() -> [Known; 35] {
    let row = |item: &str, times: usize| item.repeat(times);
    let opened = |times: usize| "l{".repeat(times);
    [
        (nested("l", 16, ""), 154, 66_066),
        (nested("l", 17, ""), -15, 0),
        (opened(17), -15, 0),
        (opened(16), -14, 0),
        (opened(16) + "l", -14, 0),
        (opened(16) + "lx", -14, 0),
        (opened(16) + "x{", -14, 0),
        (opened(16) + "{", -14, 0),
        (nested("l", 16, "i{}{}"), -15, 0),
        (nested("l", 15, "i{}{l{}}"), -15, 0),
        (nested("l", 15, "i{}x"), -14, 0),
        // the first met from the left
        (row("s", 3) + "x" + &opened(17), -14, 0),
        (opened(17) + "x", -15, 0),
        // grammar and depth are of the whole text, and come before the counts
        (row("s", 190), 1166, 66_240),
        (row("s", 191), -16, 0),
        (row("s", 191) + "x", -14, 0),
        (row("s", 191) + "}", -14, 0),
        (row("s", 191) + &opened(17), -15, 0),
        (row("s", 191) + "D{b}", -16, 0),
        (row("s", 100_000), -16, 0),
        (row("s", 100_000) + "l{", -14, 0),
        (row("l{}", 190), 1546, 66_240),
        (row("l{}", 191), -16, 0),
        (row("i{}{}", 95), 1166, 66_240),
        (row("i{}{}", 96), -16, 0),
        (row("C{}", 48), 794, 66_146),
        (row("C{}", 49), -16, 0),
        (row("C{}", 300) + "b", -16, 0),
        (row("b", 62), 398, 16_448),
        (row("b", 63), -8, 0),
        // 5 before 6, and both before 8
        (row("b", 63) + "O{}", -6, 0),
        (row("b", 63) + "O{b}", -5, 0),
        (nested("C", 16, ""), -6, 0),
        (nested("C", 16, "b"), -5, 0),
        (nested("C", 17, "b"), -15, 0),
    ]
}
