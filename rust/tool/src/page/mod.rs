//! The page: the files of the folder page/ with the regions as data in them.

mod data;
mod pack;
mod program;
mod reading;
mod sizes;
mod source;

use crate::changes::Change;
use crate::commands::program_locks::Criticals;
use crate::commands::replay::Told;
use crate::json::Json;
use crate::report::Failure;
use crate::subject::Subject;
use frontend::Directory;
use source::Source;
use std::path::Path;

const FRAME: &str = include_str!("../../../../page/page.html");
const STYLE: &str = include_str!("../../../../page/page.css");
/// The parts of the one script, in their order.
const SCRIPT: [&str; 10] = [
    include_str!("../../../../page/chart.js"),
    include_str!("../../../../page/rows.js"),
    include_str!("../../../../page/sheet.js"),
    include_str!("../../../../page/runs.js"),
    include_str!("../../../../page/layers.js"),
    include_str!("../../../../page/panel.js"),
    include_str!("../../../../page/all.js"),
    include_str!("../../../../page/paper.js"),
    include_str!("../../../../page/state.js"),
    include_str!("../../../../page/page.js"),
];

/// What is laid over the first file.
pub struct Layers<'a> {
    /// What changed from the second file to it.
    pub changes: Option<Vec<Change>>,
    /// A run of one of its regions.
    pub recorded: Option<Told<'a>>,
    /// Accesses in one of its regions that race.
    pub races: Option<Json<'static>>,
}

impl Layers<'_> {
    pub fn none() -> Self {
        Layers {
            changes: None,
            recorded: None,
            races: None,
        }
    }
}

/// What stands beside the tables of a compiled program.
pub struct Program {
    pub directory: Directory,
    pub criticals: Criticals,
}

/// The page of regions, with the source lines of files below a folder. Those of a program are all of its regions that have a
/// table, in their order.
pub fn made(
    subjects: &[Subject],
    folder: Option<&Path>,
    layers: Layers,
    program: Option<&Program>,
) -> Result<String, Failure> {
    let mut source = Source::below(folder);
    let data = data::document(subjects, &mut source, layers, program)?.document();
    // A script element ends at the first '</script', also inside of a text.
    let data = data.trim_end().replace('<', "\\u003c");
    let script = SCRIPT.concat();
    let parts = [("@STYLE@", STYLE), ("@DATA@", &data), ("@SCRIPT@", &script)];
    let (mut page, mut rest) = (String::new(), FRAME);
    for (slot, part) in parts {
        let (before, behind) = rest.split_once(slot).unwrap_or((rest, ""));
        page.extend([before, part]);
        rest = behind;
    }
    Ok(page + rest)
}
