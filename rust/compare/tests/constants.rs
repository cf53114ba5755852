//! The constants of the wrapper, which are those of the header, are the second implementation's.

use bohrali::layout::{self, ConstructKind, NodeKind};
use bohrali::{limits, AccessKind, Answer, Lock, Race, Region};
use reference::answers::Rules;
use reference::calls::PHASE_BYTES;
use reference::chart::{Chart, Construct, Edge, Node, Trailer};
use reference::{distances, listing, locks, masked, printing, races, regions, replay, sizes};

#[test]
fn limits_of_a_chart() {
    assert_eq!(limits::LEAST_NODES..=limits::MOST_NODES, Chart::NODE_LIMITS);
    assert_eq!(limits::LEAST_EDGES..=limits::MOST_EDGES, Chart::EDGE_LIMITS);
    assert_eq!(0..=limits::MOST_CONSTRUCTS, Chart::CONSTRUCT_LIMITS);
    assert_eq!(limits::MOST_BARRIERS, Chart::MOST_BARRIERS);
    assert_eq!(limits::MOST_DEPTH, listing::MOST_DEPTH);
    let longest = layout::BYTES_NODE * limits::MOST_NODES
        + layout::BYTES_EDGE * limits::MOST_EDGES
        + layout::BYTES_CONSTRUCT_2 * limits::MOST_CONSTRUCTS
        + layout::BYTES_TRAILER;
    assert_eq!(limits::MOST_CHART_BYTES, longest);
    let sizes = limits::LEAST_SIZE as u64..=limits::MOST_SIZE as u64;
    assert_eq!(sizes, sizes::SIZES);
    assert_eq!(limits::MOST_THREADS, replay::MOST_THREADS);
    assert_eq!(limits::MOST_ACCESSES, races::MOST_ACCESSES);
    assert_eq!(limits::MOST_CHART_BYTES, printing::MOST_BYTES);
}

#[test]
fn records() {
    assert_eq!(layout::BYTES_NODE, Node::BYTES);
    assert_eq!(layout::BYTES_EDGE, Edge::BYTES);
    assert_eq!(layout::BYTES_CONSTRUCT, Construct::BYTES);
    assert_eq!(layout::BYTES_CONSTRUCT_2, masked::CONSTRUCT_BYTES);
    assert_eq!(layout::BYTES_TRAILER, Trailer::BYTES);
    assert_eq!(layout::BYTES_PHASES, PHASE_BYTES);
    assert_eq!(layout::BYTES_ACCESS, races::ACCESS_BYTES);
    assert_eq!(layout::DISTANCE_AT_BARRIER, distances::AT_BARRIER);
    assert_eq!(layout::TRAILER_EDITION, Trailer::EDITION);
    assert_eq!(layout::TRAILER_EDITION_2, masked::EDITION);
    assert_eq!(layout::TRAILER_CLOSING.to_le_bytes(), Trailer::CLOSING);
    assert_eq!(layout::CONSTRUCT_NONE, Construct::NONE);
}

#[test]
fn kinds() {
    assert_eq!(NodeKind::Plain as u8, Node::PLAIN);
    assert_eq!(NodeKind::Barrier as u8, Node::BARRIER);
    assert_eq!(NodeKind::Begin as u8, Node::BEGIN);
    assert_eq!(NodeKind::End as u8, Node::END);
    assert_eq!(ConstructKind::Single as u8, Construct::SINGLE);
    assert_eq!(ConstructKind::Master as u8, Construct::MASTER);
    assert_eq!(ConstructKind::Critical as u8, Construct::CRITICAL);
    assert_eq!(ConstructKind::Do as u8, Construct::DO);
    assert_eq!(ConstructKind::Ordered as u8, Construct::ORDERED);
    assert_eq!(ConstructKind::Sections as u8, Construct::SECTIONS);
    assert_eq!(ConstructKind::Section as u8, Construct::SECTION);
    assert_eq!(ConstructKind::Parallel as u8, Construct::PARALLEL);
    assert_eq!(Region::OUTERMOST, usize::from(regions::OUTERMOST));
    assert_eq!(Answer::Concurrent as u8, Rules::CONCURRENT);
    assert_eq!(Answer::AT_BARRIER, Rules::BARRIER);
    assert_eq!([AccessKind::Read as u8, AccessKind::Write as u8], [0, 1]);
    assert_eq!(Race::None as u8, races::NO_RACE);
    assert_eq!(Race::Synchronization as u8, races::SYNCHRONIZATION_RACE);
    assert_eq!(Race::Data as u8, races::DATA_RACE);
    assert_eq!(Lock::Needed as u8, locks::NEEDED);
    assert_eq!(Lock::DroppableFinished as u8, locks::DROPPABLE_FINISHED);
    assert_eq!(Lock::DroppableAlways as u8, locks::DROPPABLE_ALWAYS);
    assert_eq!(Lock::NO_CRITICAL, locks::NO_CRITICAL);
}
