//! `bohrali distances`: how far each node lies behind a barrier.

use super::Command;
use crate::arguments::{Arguments, JSON, REGION};
use crate::json::Json;
use crate::report::{Failure, Report, Terminal};
use crate::subject::{Subject, Team};
use bohrali::layout::DISTANCE_AT_BARRIER;

pub const COMMAND: Command = Command {
    name: "distances",
    operands: "FILE",
    count: (1, 1),
    summary: "for each node the fewest edges from a barrier to it",
    details: &["Paths past no other barrier are counted. With --json 255 is a barrier, or a node outside the region."],
    options: &[REGION, JSON],
    run,
};

fn run(arguments: &Arguments, _: &Terminal) -> Result<Report, Failure> {
    let region = Team::named(arguments)?.region;
    let subject = Subject::read(&arguments.operands[0])?;
    let distances = subject.distances(region)?;
    if arguments.has(&JSON) {
        let fields = vec![
            ("file", Json::text(&subject.file)),
            ("region", Json::Number(region.number())),
            ("distances", Json::list(distances, Json::number)),
        ];
        return Ok(Report::of(Json::Object(fields).document()));
    }
    let mut text = " node  distance\n".to_string();
    for (node, distance) in (0u8..).zip(distances) {
        if distance == DISTANCE_AT_BARRIER {
            continue;
        }
        let (kind, place) = (subject.table().kind(node), subject.table().place(node));
        let line = format!("{node:>5}  {distance:>8}  {kind:<16} {place}");
        text += &format!("{}\n", line.trim_end());
    }
    Ok(Report::of(text))
}
