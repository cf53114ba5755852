//! Charts from a listing (02, Note 2): number and every byte of the buffer against the second implementation, and
//! each chart that is written admitted by the archive. And the program, which prints a listing's answers.

use charts::listings::any;
use charts::random::Random;
use compare::programs::printed;
use compare::Archive;
use reference::known_listings::{known, nested};
use reference::listing::{chart, listing, text, MOST_TEXT};

const LISTINGS: usize = 12_000;
const PRINTED: usize = 1_500;
const SEED: u64 = 2_026_111_611;
const PROGRAM: &str = "print_listing";

/// What a lent buffer holds before the call.
const FILL: u8 = 0xA5;

/// Longer than any chart that a listing gives: 192 nodes, 382 edges and 48 constructs.
const ROOM: usize = 1_740;

fn agree(archive: &mut Archive, text: &[u8], room: usize) -> i64 {
    let shown = || String::from_utf8_lossy(&text[..text.len().min(2_000)]);
    let (mut ours, mut theirs) = (vec![FILL; room], vec![FILL; room]);
    let number = archive.listing(text, &mut ours);
    assert_eq!(number, listing(text, &mut theirs), "{room}, {}", shown());
    assert_eq!(ours, theirs, "{room}, {}", shown());
    if let (Ok(length), true) = (usize::try_from(number), number > 0) {
        assert!(archive.admit(&ours[..length]) > 0, "{}", shown());
    }
    number
}

#[test]
fn known_listings() {
    let mut archive = Archive::new();
    for (text, number, counts) in known() {
        assert_eq!(agree(&mut archive, text.as_bytes(), ROOM), number, "{text}");
        let Ok(length @ 1..) = usize::try_from(number) else {
            continue;
        };
        let mut out = vec![FILL; length];
        assert_eq!(archive.listing(text.as_bytes(), &mut out), number);
        assert_eq!(archive.admit(&out), counts, "{text}");
        assert_eq!(agree(&mut archive, text.as_bytes(), length - 1), -11);
    }
}

/// A buffer with room, or one that is as long as the chart, a byte shorter, or any shorter; for some charts all calls.
#[test]
fn drawn_listings() {
    let mut archive = Archive::new();
    let mut random = Random::new(SEED);
    let mut written = 0;
    for turn in 0..LISTINGS {
        let text = any(&mut random);
        let length = chart(&text).map_or(0, |chart| chart.len());
        let room = match random.below(8) {
            0 => length,
            1 => length.saturating_sub(1),
            2 => random.below(length + 2),
            _ => length + random.below(4),
        };
        let number = agree(&mut archive, &text, room);
        written += usize::from(number > 0);
        if turn % 40 == 0 && number > 0 {
            let chart = chart(&text).expect("what was written");
            archive.agree(&chart);
        }
    }
    assert!(written > LISTINGS / 3, "{written}");
}

/// Every listing of up to five bytes over the letters that open, close and end something.
#[test]
fn short_listings() {
    const LETTERS: &[u8] = b"sSn{}il";
    let mut archive = Archive::new();
    let mut written = 0;
    for length in 0..=5 {
        for case in 0..LETTERS.len().pow(length) {
            let digits = (0..length).map(|place| case / LETTERS.len().pow(place));
            let text: Vec<u8> = digits.map(|x| LETTERS[x % LETTERS.len()]).collect();
            written += usize::from(agree(&mut archive, &text, ROOM) > 0);
        }
    }
    assert!(written > 20, "{written}");
}

/// Each byte in each place of a listing, put in and in the place of another.
#[test]
fn every_byte_has_its_place_or_none() {
    let mut archive = Archive::new();
    let whole = b"i{S{l{}}n}{b}D{O{C{s}}}";
    for place in 0..=whole.len() {
        for byte in 0..=255 {
            let mut text = whole.to_vec();
            text.insert(place, byte);
            agree(&mut archive, &text, ROOM);
            text.remove(place);
            if let Some(old) = text.get_mut(place) {
                *old = byte;
                agree(&mut archive, &text, ROOM);
            }
        }
        agree(&mut archive, &whole[..place], ROOM);
    }
}

/// Half a million bytes, with what refuses them at the end; and depth upon depth.
#[test]
fn long_and_deep_listings() {
    let mut archive = Archive::new();
    let times = 160_000;
    for item in ["s", "b", "l{}", "C{}", "S{}", "S{}n"] {
        let row = item.repeat(times * 3 / item.len().max(3));
        let row = row.as_bytes();
        assert_eq!(agree(&mut archive, row, ROOM), -16, "{item}");
        let cut = [row, b"x"].concat();
        assert_eq!(agree(&mut archive, &cut, ROOM), -14, "{item}");
        let deep = [row, &b"l{".repeat(17)].concat();
        assert_eq!(agree(&mut archive, &deep, ROOM), -15, "{item}");
    }
    for letter in ["l", "i", "C", "S", "D"] {
        let opened = format!("{letter}{{").repeat(times);
        assert_eq!(agree(&mut archive, opened.as_bytes(), ROOM), -15);
    }
    let blocks = nested("l", 16, "ss").repeat(8_000);
    assert_eq!(agree(&mut archive, blocks.as_bytes(), ROOM), -16);
    let closed = "}".repeat(times);
    assert_eq!(agree(&mut archive, closed.as_bytes(), ROOM), -14);
}

#[test]
fn printed_listings() {
    let agree = |input: &[u8]| {
        let (ours, theirs) = (printed(PROGRAM, input), text(input));
        assert_eq!(ours, theirs, "{}", String::from_utf8_lossy(input));
    };
    for (text, ..) in known() {
        agree(text.as_bytes());
    }
    for length in [MOST_TEXT, MOST_TEXT + 1, 2 * MOST_TEXT] {
        agree(&vec![b's'; length]);
        agree(&vec![b'{'; length]);
    }
    let mut random = Random::new(SEED + 1);
    for _ in 0..PRINTED {
        agree(&any(&mut random));
    }
}
