//! The contrast of the page's texts with what they stand on, at least 4.5 to 1 in both themes.

use std::collections::BTreeMap;

type Colour = [f64; 3];

/// Texts that stand on the rows, whatever the tint, and in the panel.
const EVERYWHERE: [&str; 5] = ["ink", "dim", "faint", "code", "warn"];

/// Other texts by what they stand on: of the panel, the overview, chips, cells and labels.
const TEXTS: [(&str, &str); 33] = [
    ("good", "panel"),
    ("good", "bg"),
    ("lost", "panel"),
    ("A", "panel"),
    ("A", "bg"),
    ("B", "panel"),
    ("AB", "panel"),
    ("AB", "bg"),
    ("panel", "crit"),
    ("panel", "par"),
    ("panel", "ink"),
    ("panel", "A"),
    ("panel", "B"),
    ("panel", "AB"),
    ("ink", "hatchbg"),
    ("dim", "hatchbg"),
    ("faint", "out"),
    ("ink", "hover"),
    ("faint", "hover"),
    ("warn", "hover"),
    ("ink", "panel"),
    ("dim", "panel"),
    ("faint", "panel"),
    ("code", "panel"),
    ("c0t", "c0"),
    ("c1t", "c1"),
    ("c1d", "c1"),
    ("c2t", "c2"),
    ("c3t", "c3"),
    ("c4t", "c4"),
    ("c5t", "c5"),
    ("c6t", "c6"),
    ("c7t", "c7"),
];

const STYLE: &str = include_str!("../../../page/page.css");
const SCRIPT: &str = include_str!("../../../page/chart.js");

/// The colours of a theme by their names.
fn theme(start: &str) -> BTreeMap<&'static str, &'static str> {
    let behind = STYLE.split_once(start).expect("a theme").1;
    let block = behind.split_once('}').expect("its end").0;
    let own = block.split(';').filter_map(|x| x.trim().strip_prefix("--"));
    own.filter_map(|x| x.split_once(':')).collect()
}

fn hex(text: &str) -> Colour {
    [1, 3, 5].map(|at| f64::from(u8::from_str_radix(&text[at..at + 2], 16).expect("two digits")))
}

/// The relative luminance by which contrast is computed.
fn luminance(colour: Colour) -> f64 {
    let [red, green, blue] = colour.map(|x| match x / 255.0 {
        x if x <= 0.04045 => x / 12.92,
        x => ((x + 0.055) / 1.055).powf(2.4),
    });
    0.2126 * red + 0.7152 * green + 0.0722 * blue
}

#[track_caller]
fn readable(text: Colour, ground: Colour, what: &str) {
    let [text, ground] = [text, ground].map(luminance);
    let contrast = (text.max(ground) + 0.05) / (text.min(ground) + 0.05);
    assert!(contrast >= 4.5, "{what}: {contrast:.2}");
}

fn over(colour: Colour, part: f64, ground: Colour) -> Colour {
    [0, 1, 2].map(|x| colour[x] * part + ground[x] * (1.0 - part))
}

/// The tints of rows as the style has them: a colour, by name or number, and how much of it.
fn tints() -> Vec<(&'static str, f64)> {
    let rows = STYLE
        .split('}')
        .filter(|x| x.trim_start().starts_with(".row."));
    let mixes = rows.flat_map(|x| x.split("color-mix(in srgb,").skip(1));
    let tint = |mix: &'static str| {
        let (colour, rest) = mix.split_once(' ').expect("a part");
        let part: f64 = rest
            .split_once('%')
            .expect("per cent")
            .0
            .parse()
            .expect("a number");
        (
            colour.trim_start_matches("var(--").trim_end_matches(')'),
            part / 100.0,
        )
    };
    mixes.map(tint).collect()
}

/// The colours that a row's tint may be of: a construct's frame is of its own.
fn of_tint(name: &'static str) -> Vec<&'static str> {
    match name {
        "fc" => vec!["c2", "c3", "c4", "c5", "crit", "par"],
        _ => vec![name],
    }
}

#[test]
fn text_is_readable_in_both_themes() {
    assert_eq!(tints().len(), 7, "tints of rows");
    let light = theme(":root{");
    let mut dark = light.clone();
    dark.extend(theme(":root[data-theme=dark]{"));
    for theme in [light, dark] {
        let named = |name: &str| match name.starts_with('#') {
            true => hex(name),
            false => hex(theme[name]),
        };
        for (text, ground) in TEXTS {
            readable(named(text), named(ground), &format!("{text} on {ground}"));
        }
        let band = theme["band"]
            .trim_start_matches("rgba(")
            .trim_end_matches(')');
        let band: Vec<f64> = band
            .split(',')
            .map(|x| x.parse().expect("a number"))
            .collect();
        let band = ([band[0], band[1], band[2]], band[3]);
        let mut grounds = vec![("bg", named("bg"))];
        grounds.extend(["bg", "panel"].map(|x| ("band", over(band.0, band.1, named(x)))));
        for (name, part) in tints() {
            let colours = of_tint(name).into_iter();
            grounds.extend(colours.map(|x| (x, over(named(x), part, named("bg")))));
        }
        for text in EVERYWHERE {
            for (name, ground) in &grounds {
                readable(named(text), *ground, &format!("{text} on a tint of {name}"));
            }
        }
    }
}

/// Threads are told by white letters on a colour of their own.
#[test]
fn tokens_are_readable() {
    let tokens = SCRIPT.split_once("TOKENS = [").expect("the tokens").1;
    let tokens = tokens.split_once(']').expect("their end").0;
    let tokens: Vec<&str> = tokens.split(", ").map(|x| x.trim_matches('"')).collect();
    assert_eq!(tokens.len(), 8);
    for token in tokens {
        readable([255.0; 3], hex(token), token);
    }
}
