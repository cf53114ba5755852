//! Row 6, and what the construct table says.

use crate::bits::bits;
use crate::tables::{Filtered, Record, Records, MOST_CONSTRUCTS, NONE};

pub const SINGLE: u8 = 1;
pub const MASTER: u8 = 2;
pub const CRITICAL: u8 = 3;
pub const DO: u8 = 4;
pub const ORDERED: u8 = 5;
pub const SECTIONS: u8 = 6;
pub const SECTION: u8 = 7;
pub const PARALLEL: u8 = 8;

/// By kind, the kinds that may be above in its region, bit k for kind k; the first entry is a parallel's.
const ABOVE: [u8; 8] = [
    0b1111_1110,
    0,
    1 << CRITICAL,
    0b1111_1110,
    0,
    1 << DO,
    0,
    1 << SECTIONS,
];

/// By kind, what of these must not be all that is above. Nothing is above a do or a sections, so that
/// their bit alone tells the parent: an ordered and a section have one, a critical and a parallel are not
/// directly in a sections. Bit 0 is not above anything: a parallel's, since nesting starts anew in it.
const NOT_ALL: [u8; 8] = [1 << SECTIONS, 1, 1, 1 << SECTIONS, 1, 0, 1, 0];

/// The bit of an exclusion that all masters of edition 1 share; constructs have bits 0 to 47.
const ANY_MASTER: u64 = 1 << 63;

/// The entry of a construct, or of none: 255 falls on 63, which no construct has.
#[inline(always)]
pub fn at(construct: u8) -> usize {
    usize::from(construct & 63)
}

/// What the construct table says, by construct.
pub struct Constructs {
    pub parent: [u8; 64],
    /// The construct whose exclusions its begin and end have: its parent, for a section itself.
    pub framed: [u8; 64],
    /// Of a node that lies there: the bit of the masters, of a filter in edition 2, the single or the
    /// section around it, or the do of the ordered around it. The nesting table leaves at most one.
    pub excludes: [u64; 64],
    pub count: usize,
    /// The bits of masters.
    pub masters: u64,
    pub singles: u64,
    /// Dos that have an ordered.
    pub dos: u64,
    /// Sections constructs.
    pub dealt: u64,
    /// The sections in them.
    pub parts: u64,
}

/// What is above a construct in its region, itself included unless it is a parallel.
struct Above {
    kinds: [u8; 64],
    /// Bits of the names of criticals; two names may share one.
    names: [u64; 64],
}

impl Constructs {
    #[inline(always)]
    pub fn new() -> Constructs {
        Constructs {
            parent: [NONE; 64],
            framed: [NONE; 64],
            excludes: [0; 64],
            count: 0,
            masters: ANY_MASTER,
            singles: 0,
            dos: 0,
            dealt: 0,
            parts: 0,
        }
    }

    /// Constructs whose return takes exclusions away.
    #[inline(always)]
    pub fn returnable(&self) -> u64 {
        self.singles | self.dos | self.dealt
    }

    /// Reads the table; false if row 6 applies.
    #[inline(always)]
    pub fn read(&mut self, records: &Records) -> bool {
        match *records {
            Records::First(table) => {
                self.count = table.len();
                self.read_table(table, |_| ANY_MASTER)
            }
            Records::Second(table) => {
                self.count = table.len();
                self.read_filtered(table)
            }
        }
    }

    /// Edition 2: a master has the bit of the first one of its filter.
    #[inline(never)]
    fn read_filtered(&mut self, table: &[Filtered]) -> bool {
        let mut records = [[0; 4]; MOST_CONSTRUCTS];
        self.masters = 0;
        for (number, &[kind, parent, low, high, filter @ ..]) in table.iter().enumerate() {
            if kind != MASTER && filter != [0, 0] {
                return false;
            }
            self.masters |= u64::from(kind == MASTER) << number;
            records[number] = [kind, parent, low, high];
        }
        let alike = |one: &Filtered, other: &Filtered| one[0] == other[0] && one[4..] == other[4..];
        let first = |master: usize| table.iter().position(|x| alike(x, &table[master]));
        self.read_table(&records[..table.len()], |master| {
            first(master).map_or(0, |bit| 1 << bit)
        })
    }

    /// Reads records of four bytes, with the bits of masters.
    #[inline(always)]
    fn read_table(&mut self, table: &[Record], master: impl Fn(usize) -> u64) -> bool {
        let mut above = Above {
            kinds: [0; 64],
            names: [0; 64],
        };
        let mut kinds = 0;
        for (number, record) in table.iter().enumerate() {
            if !above.allow(table, number, record) {
                return false;
            }
            let &[kind, parent, ..] = record;
            let own = match kind {
                SINGLE | SECTION => 1 << number,
                MASTER => master(number),
                ORDERED => 1 << at(parent),
                _ => 0,
            };
            self.parent[number & 63] = parent;
            self.excludes[number & 63] = self.excludes[at(parent)] | own;
            self.singles |= if kind == SINGLE { own } else { 0 };
            self.dos |= if kind == ORDERED { own } else { 0 };
            kinds |= kind_bit(kind);
        }
        self.framed = self.parent;
        if kinds & kind_bit(SECTIONS) != 0 {
            self.read_sections(table);
        }
        if kinds & kind_bit(PARALLEL) != 0 {
            self.read_regions(table);
        }
        true
    }

    /// Constructs of inner regions count for nothing: what lies there has the exclusions of the parallel
    /// around it. Their returns, though looked for, take nothing away.
    #[inline(never)]
    fn read_regions(&mut self, table: &[Record]) {
        let mut inner = 0u64;
        for (number, &[kind, parent, ..]) in table.iter().enumerate() {
            if kind == PARALLEL || inner >> at(parent) & 1 == 1 {
                inner |= 1 << number;
                self.excludes[number & 63] = self.excludes[at(parent)];
            }
        }
    }

    /// What is known only of charts with a sections construct.
    #[inline(always)]
    fn read_sections(&mut self, table: &[Record]) {
        for (number, &[kind, ..]) in table.iter().enumerate() {
            self.dealt |= u64::from(kind == SECTIONS) << number;
            self.parts |= u64::from(kind == SECTION) << number;
        }
        for part in bits(self.parts) {
            self.framed[part] = part as u8;
        }
    }
}

/// The bit of a kind from 1 to 8, bit 0 for the last.
#[inline(always)]
fn kind_bit(kind: u8) -> u8 {
    1 << (kind & 7)
}

impl Above {
    /// Whether a construct is in order below those before it, which are.
    #[inline(always)]
    fn allow(&mut self, table: &[Record], number: usize, record: &Record) -> bool {
        let &[kind, parent, low, high] = record;
        let critical = kind == CRITICAL;
        let outer = at(parent);
        let kinds = self.kinds[outer];
        if kind.wrapping_sub(1) > 7
            || (parent != NONE && usize::from(parent) >= number)
            || (!critical && low | high != 0)
            || kinds & !ABOVE[usize::from(kind & 7)] != 0
            || kinds == NOT_ALL[usize::from(kind & 7)]
        {
            return false;
        }
        let name = if critical { 1u64 << (low & 63) } else { 0 };
        // Names that share a bit are looked at.
        if self.names[outer] & name != 0 && repeats_name(table, record) {
            return false;
        }
        if kind != PARALLEL {
            self.kinds[number & 63] = kinds | kind_bit(kind);
            self.names[number & 63] = self.names[outer] | name;
        }
        true
    }
}

/// Whether a critical is below one of the same name in its region; all parents are lower.
fn repeats_name(table: &[Record], critical: &Record) -> bool {
    let mut above = critical[1];
    while let Some(&[kind, parent, low, high]) = table.get(usize::from(above)) {
        if kind == PARALLEL {
            return false;
        }
        if kind == CRITICAL && [low, high] == [critical[2], critical[3]] {
            return true;
        }
        above = parent;
    }
    false
}
