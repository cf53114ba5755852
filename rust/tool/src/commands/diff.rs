//! `bohrali diff`: the answers that changed from one file to another.

use super::Command;
use crate::arguments::{Arguments, JSON, REGION, SIZE};
use crate::changes::{self, Change, BY};
use crate::json::Json;
use crate::report::{Colour, Failure, Report, Terminal, FOUND, GOOD};
use crate::subject::{Subject, Team};
use crate::words::{self, count};

pub const COMMAND: Command = Command {
    name: "diff",
    operands: "OLD NEW",
    count: (2, 2),
    summary: "answers that changed: nevers that were lost, then those gained",
    details: &[
        "A never is lost where two threads can now be at two nodes at which they never were together. Every
region that both files have is compared, or just one with --region. With --by where two nodes match that
have the same text in 'where' and are of the same kind; of several such nodes the first matches the
first. Numbers are those of NEW.",
    ],
    options: &[BY, REGION, SIZE, JSON],
    run,
};

fn run(arguments: &Arguments, terminal: &Terminal) -> Result<Report, Failure> {
    let team = Team::named(arguments)?;
    let old = Subject::read(&arguments.operands[0])?;
    let new = Subject::read(&arguments.operands[1])?;
    let mut matching = changes::matching(arguments, &old, &new)?;
    let notes = matching.notes(&old, &new);
    if arguments.has(&REGION) {
        new.distances(team.region)?;
        matching.regions.retain(|x| x.1 == team.region);
        if matching.regions.is_empty() {
            let region = team.region.number();
            let message = format!("region {region} of {} has no match", new.file);
            return Err(Failure::about(&old.file, message));
        }
    }
    let changes = changes::all(&old, &new, &matching, team.size)?;
    let (lost, gained): (Vec<Change>, Vec<Change>) = changes.into_iter().partition(Change::is_lost);
    let text = match arguments.has(&JSON) {
        true => document(&lost, &gained),
        false => text(&new, &lost, &gained, terminal),
    };
    let status = if lost.is_empty() { GOOD } else { FOUND };
    Ok(Report::of(text).with_notes(notes).with_status(status))
}

fn text(new: &Subject, lost: &[Change], gained: &[Change], terminal: &Terminal) -> String {
    let mut text = String::new();
    let kinds = [
        ("lost", Colour::Warm, lost),
        ("gained", Colour::Good, gained),
    ];
    for (word, colour, changes) in kinds {
        for change in changes {
            let table = new.table();
            text += &format!(
                "{}  {} and {}, in {}: {} before, {} now\n",
                terminal.paint(colour, word),
                words::node(table, change.a),
                words::node(table, change.b),
                words::region(table, change.region),
                change.before,
                change.after
            );
        }
    }
    text + &format!(
        "{} lost, {} gained\n",
        count(lost.len(), "never"),
        gained.len()
    )
}

fn document(lost: &[Change], gained: &[Change]) -> String {
    let fields = vec![
        ("lost", Json::list(lost, Change::document)),
        ("gained", Json::list(gained, Change::document)),
    ];
    Json::Object(fields).document()
}
