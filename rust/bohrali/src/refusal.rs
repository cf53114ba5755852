//! The refusals, by the numbers of include/bohrali.h.

use std::error::Error;
use std::fmt;

/// Why a call was refused: the first of its rows that applies, in the order of these numbers, but that
/// `Region` comes straight after `Paths`, and `Accesses` straight after `Region`; `insert_edge` and
/// `remove_edge` check two charts and a length before them, and `listing` comes from `Grammar`, `Depth` and
/// `Limits` to `Node`, `Construct`, `Barrier` and `Room`, as include/bohrali.h says.
#[derive(Clone, Copy, Debug, PartialEq, Eq, Hash)]
#[non_exhaustive]
#[repr(u8)]
pub enum Refusal {
    /// Fewer than 16 bytes.
    Short = 1,
    /// Edition neither 1 nor 2, or closing bytes differ.
    Marks = 2,
    /// Node, edge or construct count outside its limits.
    Counts = 3,
    /// Length or a distance of the trailer differs from what the edition asks.
    Lengths = 4,
    /// A node's kind or construct number, or a barrier naming what is no parallel.
    Node = 5,
    /// A construct's kind, parent or name, a filter on a kind that is not masked, the nesting, or a node
    /// or construct wrongly in a sections.
    Construct = 6,
    /// Not exactly one begin and one end for each construct.
    Frame = 7,
    /// First or last node no barrier, or over 64 barriers in one region.
    Barrier = 8,
    /// An edge names no node, is out of order or is not allowed.
    Edge = 9,
    /// A node not reached from Start, or not reaching Finish.
    Paths = 10,
    /// The buffer is shorter than the result.
    Room = 11,
    /// An odd number of bytes.
    Claims = 12,
    /// A node number that no node of the region has, or that of a barrier.
    Numbers = 13,
    /// A byte missing in a listing, or one with no place in the grammar.
    Grammar = 14,
    /// Over 16 braces open in a listing.
    Depth = 15,
    /// Node, edge or construct count of a listing over the limits of a chart.
    Limits = 16,
    /// A receipt's length or place that asking would not give now.
    Receipt = 17,
    /// Fewer than two bytes past the chart.
    Space = 18,
    /// The chart has no such edge.
    NoEdge = 19,
    /// A list of accesses not of whole records or of over 1,024, a kind of access over 1, or a node number
    /// that `Numbers` would refuse.
    Accesses = 20,
    /// A team size below 1 or over 1,024.
    Size = 21,
    /// A trace of an odd number of bytes, or one for a team of no thread or of over 8.
    Trace = 22,
    /// A region's number that names no parallel construct.
    Region = 23,
}

impl Refusal {
    /// All refusals, in the order of their numbers.
    pub const ALL: [Refusal; 23] = [
        Refusal::Short,
        Refusal::Marks,
        Refusal::Counts,
        Refusal::Lengths,
        Refusal::Node,
        Refusal::Construct,
        Refusal::Frame,
        Refusal::Barrier,
        Refusal::Edge,
        Refusal::Paths,
        Refusal::Room,
        Refusal::Claims,
        Refusal::Numbers,
        Refusal::Grammar,
        Refusal::Depth,
        Refusal::Limits,
        Refusal::Receipt,
        Refusal::Space,
        Refusal::NoEdge,
        Refusal::Accesses,
        Refusal::Size,
        Refusal::Trace,
        Refusal::Region,
    ];

    /// The number that C gets, negated.
    pub fn number(self) -> u8 {
        self as u8
    }

    fn reason(self) -> &'static str {
        match self {
            Refusal::Short => "fewer than 16 bytes",
            Refusal::Marks => "edition or closing bytes differ",
            Refusal::Counts => "node, edge or construct count outside its limits",
            Refusal::Lengths => "length or a distance differs",
            Refusal::Node => "a node's kind or construct number is wrong",
            Refusal::Construct => {
                "a construct's kind, parent, name or filter, the nesting or what is in a sections is wrong"
            }
            Refusal::Frame => "a construct has not exactly one begin and one end",
            Refusal::Barrier => {
                "the first or last node is no barrier, or there are over 64 in one region"
            }
            Refusal::Edge => "an edge names no node, is out of order or is not allowed",
            Refusal::Paths => "a node is not reached from Start or does not reach Finish",
            Refusal::Room => "the buffer is shorter than the result",
            Refusal::Claims => "the claims are an odd number of bytes",
            Refusal::Numbers => "a node number is a barrier's or that of no node of the region",
            Refusal::Grammar => "a byte of the listing is missing or has no place in the grammar",
            Refusal::Depth => "over 16 braces of the listing are open",
            Refusal::Limits => "the listing has too many nodes, edges or constructs",
            Refusal::Receipt => "the receipt's length or place no longer agrees",
            Refusal::Space => "there are fewer than two bytes past the chart",
            Refusal::NoEdge => "the chart has no such edge",
            Refusal::Accesses => {
                "the accesses are no whole records, too many, or one has a wrong kind or node"
            }
            Refusal::Size => "the team size is below 1 or over 1024",
            Refusal::Trace => "the trace is an odd number of bytes, or its team is none or over 8",
            Refusal::Region => "the region's number names no parallel",
        }
    }
}

impl fmt::Display for Refusal {
    fn fmt(&self, f: &mut fmt::Formatter<'_>) -> fmt::Result {
        write!(f, "refused {}: {}", self.number(), self.reason())
    }
}

impl Error for Refusal {}
