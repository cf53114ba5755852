//! Listings to test with (02, Note 2): drawn from the grammar, most with constructs where 01 allows them, then
//! damaged, or made too long or too deep.

use crate::random::Random;

/// The letters of the grammar, and bytes that have no place in it.
const BYTES: &[u8] = b"sblinSMCDOn{}{}{} \nx\0\xFF";

/// What a listing may still have.
struct Draft<'a> {
    random: &'a mut Random,
    text: Vec<u8>,
    /// Items, of which a block has no more once they are used up.
    left: usize,
    depth: usize,
    /// In percent, how often a letter is taken without a look at what is around it.
    careless: usize,
    /// In percent, how often an item that fits is a barrier.
    barriers: usize,
}

/// A listing of at most so many items, no deeper than 16.
pub fn listing(random: &mut Random, items: usize) -> Vec<u8> {
    let careless = random.pick(&[0, 0, 0, 0, 2, 10]);
    let barriers = random.pick(&[2, 10, 30]);
    let mut draft = Draft {
        random,
        text: Vec::new(),
        left: items,
        depth: 0,
        careless,
        barriers,
    };
    while draft.left > 0 {
        draft.item(&[]);
    }
    draft.text
}

impl Draft<'_> {
    /// An item inside these constructs, outermost first.
    fn item(&mut self, around: &[u8]) {
        self.left = self.left.saturating_sub(1);
        let letter = self.letter(around);
        self.text.push(letter);
        match letter {
            b's' | b'b' => {}
            b'l' => self.block(around),
            b'i' => {
                self.block(around);
                self.block(around);
            }
            _ => {
                self.block(&[around, &[letter]].concat());
                // inside something a barrier would be refused
                let bare = around.is_empty() && self.random.percent(50);
                if matches!(letter, b'S' | b'D') && !(bare || self.is_careless()) {
                    self.text.push(b'n');
                }
            }
        }
    }

    fn block(&mut self, around: &[u8]) {
        self.text.push(b'{');
        self.depth += 1;
        let items = self.random.below(4);
        for _ in 0..items {
            if self.left > 0 {
                self.item(around);
            }
        }
        self.depth -= 1;
        self.text.push(b'}');
    }

    fn letter(&mut self, around: &[u8]) -> u8 {
        if self.depth == 16 {
            return b's';
        }
        if self.is_careless() {
            return self.random.pick(b"sbliSMCDO");
        }
        let barrier = self.random.percent(self.barriers);
        match around {
            [] if barrier => b'b',
            [] => self.random.pick(b"ssllliiiSSMMCCDD"),
            [b'D'] => self.random.pick(b"sslliiOOOC"),
            [b'C'] => self.random.pick(b"sslliiMM"),
            around if around.contains(&b'C') => self.random.pick(b"ssli"),
            _ => self.random.pick(b"sslliC"),
        }
    }

    fn is_careless(&mut self) -> bool {
        self.random.percent(self.careless)
    }
}

/// One to three bytes put in, taken out, changed or exchanged, or an end cut off.
pub fn damaged(random: &mut Random, mut text: Vec<u8>) -> Vec<u8> {
    for _ in 0..random.between(1, 3) {
        let place = random.below(text.len() + 1);
        let byte = random.pick(BYTES);
        match random.below(10) {
            0..3 => text.insert(place, byte),
            _ if place == text.len() => text.push(byte),
            3..6 => _ = text.remove(place),
            6..8 => text[place] = byte,
            8 => text.swap(place, 0),
            _ => text.truncate(place),
        }
    }
    text
}

/// Bytes of the grammar in any order.
pub fn scrambled(random: &mut Random) -> Vec<u8> {
    let length = random.below(12);
    (0..length).map(|_| random.pick(BYTES)).collect()
}

/// A listing in up to twenty loops, branches or criticals, closed, or not all of them.
pub fn deep(random: &mut Random) -> Vec<u8> {
    let depth = random.between(12, 20);
    let letters: &[u8] = random.pick(&[b"l", b"li", b"lC"]);
    let mut text = Vec::new();
    let mut closing: Vec<&[u8]> = Vec::new();
    for _ in 0..depth {
        let letter = random.pick(letters);
        text.extend([letter, b'{']);
        closing.push(if letter == b'i' { b"}{}" } else { b"}" });
    }
    text.extend(listing(random, 2));
    let closed = depth - if random.percent(10) { 1 } else { 0 };
    text.extend(closing.into_iter().rev().take(closed).flatten());
    text
}

/// A listing with about as many barriers as a chart may have.
pub fn crowded(random: &mut Random) -> Vec<u8> {
    let items = random.below(20);
    let mut text = listing(random, items);
    text.extend(vec![b'b'; random.between(50, 66)]);
    text
}

/// A listing from all of these, about six in ten with a chart.
pub fn any(random: &mut Random) -> Vec<u8> {
    let items = match random.below(10) {
        0 => random.between(100, 400),
        1..4 => random.between(20, 100),
        _ => random.below(20),
    };
    match random.below(20) {
        0 => crowded(random),
        1 => scrambled(random),
        2..4 => deep(random),
        4..6 => {
            let text = listing(random, items);
            damaged(random, text)
        }
        _ => listing(random, items),
    }
}
