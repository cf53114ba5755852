//! Texts that repeat themselves, packed: page/chart.js unpacks them.

use std::collections::HashMap;

const DIGITS: &[u8; 64] = b"0123456789ABCDEFGHIJKLMNOPQRSTUVWXYZabcdefghijklmnopqrstuvwxyz-_";
/// What a copy of earlier text begins with: by the digits of how far back that is, one to four, and of its length, one or two.
const MARKS: &[u8; 8] = b"!#$%()*+";
const MOST_FAR: usize = 1 << 24;
const MOST_LONG: usize = (1 << 12) - 1;
/// So many earlier places are looked at.
const TRIALS: usize = 32;
/// The bytes by which an earlier place is found.
const KEY: usize = 4;

/// A number with so many digits.
pub fn digits(number: usize, width: usize) -> impl Iterator<Item = u8> {
    let places = (0..width).rev();
    places.map(move |place| DIGITS[number >> (6 * place) & 63])
}

/// The digits that a number needs.
pub fn width(number: usize) -> usize {
    (1..).find(|x| number >> (6 * x) == 0).unwrap_or(1)
}

/// A copy of earlier text.
#[derive(Clone, Copy)]
struct Copied {
    far: usize,
    long: usize,
}

impl Copied {
    /// The bytes that it spares.
    fn spared(self) -> usize {
        let cost = 1 + width(self.far) + width(self.long);
        self.long.saturating_sub(cost)
    }

    fn write(self, out: &mut Vec<u8>) {
        let (far, long) = (width(self.far), width(self.long));
        out.push(MARKS[(far - 1) + 4 * (long - 1)]);
        out.extend(digits(self.far, far).chain(digits(self.long, long)));
    }
}

/// Where each few bytes of a text stood before.
#[derive(Default)]
struct Places<'a> {
    last: HashMap<&'a [u8], usize>,
    /// The place before each place.
    before: Vec<Option<usize>>,
}

impl<'a> Places<'a> {
    fn add(&mut self, text: &'a [u8], at: usize) {
        let key = text.get(at..at + KEY);
        self.before.push(key.and_then(|x| self.last.insert(x, at)));
    }

    /// The copy that spares most.
    fn best(&self, text: &[u8], at: usize) -> Option<Copied> {
        let first = self.last.get(text.get(at..at + KEY)?).copied();
        let places = std::iter::successors(first, |&x| self.before[x]);
        let copies = places.take(TRIALS).map(|place| {
            let behind = text[place..].iter().zip(&text[at..]).take(MOST_LONG);
            Copied {
                far: at - place,
                long: behind.take_while(|x| x.0 == x.1).count(),
            }
        });
        let copies = copies.filter(|x| x.far < MOST_FAR && x.spared() > 0);
        copies.max_by_key(|x| x.spared())
    }
}

/// A text of digits and other letters that are no marks.
pub fn packed(text: &[u8]) -> String {
    let mut places = Places::default();
    let mut out = Vec::new();
    let mut at = 0;
    while at < text.len() {
        let copied = places.best(text, at);
        let long = match copied {
            Some(copied) => {
                copied.write(&mut out);
                copied.long
            }
            None => {
                out.push(text[at]);
                1
            }
        };
        for _ in 0..long {
            places.add(text, at);
            at += 1;
        }
    }
    String::from_utf8(out).unwrap_or_default()
}
