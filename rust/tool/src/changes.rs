//! The nevers that were lost or gained from one file to another.

use crate::arguments::{Arguments, Opt};
use crate::json::Json;
use crate::matching::Matching;
use crate::report::Failure;
use crate::subject::{Subject, Team};
use crate::words::is_never;
use bohrali::{Answer, Region, Size};

pub const BY: Opt = Opt {
    name: "--by",
    value: Some("WHAT"),
    help: "match nodes by 'number', which is meant if not given, or by 'where'",
};

/// An answer that is another one now; the nodes are NEW's.
pub struct Change {
    pub region: Region,
    pub a: u8,
    pub b: u8,
    pub before: u8,
    pub after: u8,
}

impl Change {
    pub fn is_lost(&self) -> bool {
        is_never(self.before)
    }

    pub fn document<'a>(&self) -> Json<'a> {
        Json::Object(vec![
            ("region", Json::Number(self.region.number())),
            ("a", Json::number(self.a)),
            ("b", Json::number(self.b)),
            ("before", Json::number(self.before)),
            ("after", Json::number(self.after)),
        ])
    }
}

/// What the two files have in common, by what the options say.
pub fn matching(arguments: &Arguments, old: &Subject, new: &Subject) -> Result<Matching, Failure> {
    let matching = match arguments.value(&BY).map(|x| x.to_string_lossy()).as_deref() {
        None | Some("number") => Matching::by_number(old, new),
        Some("where") => Matching::by_where(old, new),
        Some(other) => {
            let message = format!("--by wants 'number' or 'where', '{other}' found");
            return Err(Failure::words(message));
        }
    };
    match matching.nodes.is_empty() {
        true => {
            let message = format!("no node matches one of {}", new.file);
            Err(Failure::about(&old.file, message))
        }
        false => Ok(matching),
    }
}

/// All changes of the regions that match, for teams of any size or of one.
pub fn all(
    old: &Subject,
    new: &Subject,
    matching: &Matching,
    size: Option<Size>,
) -> Result<Vec<Change>, Failure> {
    let mut changes = Vec::new();
    for &(before, after) in &matching.regions {
        let teams = [before, after].map(|region| Team { region, size });
        changes.extend(changed(old, new, teams, &matching.nodes)?);
    }
    Ok(changes)
}

/// The nevers that were lost or gained in one region.
fn changed(
    old: &Subject,
    new: &Subject,
    teams: [Team; 2],
    nodes: &[(u8, u8)],
) -> Result<Vec<Change>, Failure> {
    let sheets = [old.sheet(teams[0])?, new.sheet(teams[1])?];
    let at = |sheet: &[u8], width: usize, a: u8, b: u8| {
        let place = usize::from(a) * width + usize::from(b);
        sheet.get(place).copied().unwrap_or(Answer::AT_BARRIER)
    };
    let mut changes = Vec::new();
    for (place, one) in nodes.iter().enumerate() {
        for other in &nodes[place..] {
            let before = at(&sheets[0], old.nodes(), one.0, other.0);
            let after = at(&sheets[1], new.nodes(), one.1, other.1);
            let (lost, gained) = (
                is_never(before) && after == 0,
                before == 0 && is_never(after),
            );
            if lost || gained {
                changes.push(Change {
                    region: teams[1].region,
                    a: one.1,
                    b: other.1,
                    before,
                    after,
                });
            }
        }
    }
    Ok(changes)
}
