//! Rows 1 to 4: the three tables of a chart, as its trailer splits it.

pub const MOST_NODES: usize = 192;
pub const MOST_EDGES: usize = 1024;
pub const MOST_CONSTRUCTS: usize = 48;
pub const MOST_BARRIERS: usize = 64;

/// In place of a construct's number: none.
pub const NONE: u8 = 255;

pub type Record = [u8; 4];

/// A construct record of edition 2: its filter comes last.
pub type Filtered = [u8; 6];

/// The construct records of an edition.
#[derive(Clone, Copy)]
pub enum Records<'a> {
    First(&'a [Record]),
    Second(&'a [Filtered]),
}

impl Records<'_> {
    /// Kind, parent and name of a construct, if there is one of this number.
    pub fn record(&self, number: usize) -> Option<Record> {
        match self {
            Records::First(table) => table.get(number).copied(),
            Records::Second(table) => table.get(number).map(|&[a, b, c, d, ..]| [a, b, c, d]),
        }
    }

    /// The filter of a construct: 0 in edition 1.
    pub fn filter(&self, number: usize) -> u16 {
        match self {
            Records::First(_) => 0,
            Records::Second(table) => table
                .get(number)
                .map_or(0, |&[.., low, high]| u16::from_le_bytes([low, high])),
        }
    }

    /// The kind byte of a construct, if there is one of this number.
    pub fn kind_of(&self, number: u8) -> Option<u8> {
        self.record(number.into()).map(|[kind, ..]| kind)
    }
}

/// The tables of bytes that passed rows 1 to 4.
#[derive(Clone, Copy)]
pub struct Tables<'a> {
    pub nodes: &'a [Record],
    pub edges: &'a [[u8; 2]],
    pub constructs: Records<'a>,
}

impl<'a> Tables<'a> {
    #[inline(always)]
    pub fn of(chart: &'a [u8]) -> Result<Tables<'a>, u8> {
        let (body, trailer) = chart.split_last_chunk::<16>().ok_or(1u8)?;
        let field =
            |i: usize| usize::from(u16::from_le_bytes([trailer[2 * i], trailer[2 * i + 1]]));
        let first = field(0) == 1;
        if !(first || field(0) == 2) || trailer[14..] != [0x4F, 0x43] {
            return Err(2);
        }
        let (n, e, c) = (field(1), field(2), field(3));
        if !(2..=MOST_NODES).contains(&n) || !(1..=MOST_EDGES).contains(&e) || c > MOST_CONSTRUCTS {
            return Err(3);
        }
        let to_constructs = if first { 4 * c } else { 6 * c } + 16;
        let to_edges = 2 * e + to_constructs;
        let whole = 4 * n + to_edges;
        if chart.len() != whole
            || [field(4), field(5), field(6)] != [whole, to_edges, to_constructs]
        {
            return Err(4);
        }
        let (nodes, rest) = body.split_at(4 * n);
        let (edges, constructs) = rest.split_at(2 * e);
        Ok(Tables {
            nodes: nodes.as_chunks().0,
            edges: edges.as_chunks().0,
            constructs: match first {
                true => Records::First(constructs.as_chunks().0),
                false => Records::Second(constructs.as_chunks().0),
            },
        })
    }
}
