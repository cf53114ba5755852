//! What shows the answers about one team: words, and certified runs.

use crate::json::Json;
use crate::report::{Colour, Failure, Terminal};
use crate::subject::{Subject, Team};
use crate::words;
use witness::run::Entry;
use witness::view::View;
use witness::{Error, Naming, Run, Why, Witnesses};

/// A team over a region that has been read for it.
pub struct Evidence<'a> {
    subject: &'a Subject,
    team: Team,
    view: View<'a>,
}

impl Evidence<'_> {
    pub fn of(subject: &Subject, team: Team) -> Result<Evidence<'_>, Failure> {
        let view = View::read(&subject.loaded.bytes, team.region);
        Ok(Evidence {
            subject,
            team,
            view: view.map_err(|x| failure(subject, x))?,
        })
    }

    fn naming(&self) -> Naming<'_> {
        Naming {
            view: &self.view,
            table: self.subject.table(),
        }
    }

    /// What shows the answers for pairs of nodes.
    pub fn all(&self, pairs: &[(u8, u8)]) -> Result<Vec<Why>, Failure> {
        let mut witnesses = Witnesses::new(&self.view);
        let pairs = pairs.iter();
        pairs.map(|x| self.one(&mut witnesses, *x)).collect()
    }

    /// What shows the answer for two nodes.
    pub fn why(&self, a: u8, b: u8) -> Result<Why, Failure> {
        self.one(&mut Witnesses::new(&self.view), (a, b))
    }

    fn one(&self, witnesses: &mut Witnesses, (a, b): (u8, u8)) -> Result<Why, Failure> {
        let size = self.team.size;
        let why = Why::of(&self.naming(), witnesses, size, a.into(), b.into());
        why.map_err(|x| failure(self.subject, x))
    }

    /// For a person; with `all` no part of the run is folded.
    pub fn text(&self, why: &Why, all: bool, terminal: &Terminal) -> String {
        let mut lines = why.lines(&self.naming(), all).into_iter();
        let first = lines.next().unwrap_or_default();
        let first = terminal.paint(words::colour(why.answer as u8), &first);
        let rest = lines.map(|line| match line.contains(MET) {
            true => terminal.paint(Colour::Strong, &line),
            false => line,
        });
        let lines = [first].into_iter().chain(rest);
        lines.map(|line| line + "\n").collect()
    }

    pub fn document<'a>(&'a self, why: &'a Why) -> Json<'a> {
        let mut fields = self.subject.asked(self.team);
        fields.extend([
            ("a", Json::Number(why.a)),
            ("b", Json::Number(why.b)),
            ("answer", Json::number(why.answer as u8)),
            ("every_run", Json::Bool(why.every_run)),
            ("words", Json::list(&why.words, Json::text)),
            ("run", Json::option(why.run.as_ref(), run)),
        ]);
        Json::Object(fields)
    }
}

/// What marks the moment in a table.
const MET: &str = ">>>>>";

fn run(run: &Run) -> Json<'_> {
    let entry = |x: &Entry| Json::list([x.thread, x.node], Json::number);
    Json::Object(vec![
        ("threads", Json::Number(run.threads)),
        ("trace", Json::list(&run.trace, entry)),
        ("met_after", Json::Number(run.met_after)),
        ("at", Json::list(run.at, Json::Number)),
        ("keeps_locks", Json::Bool(run.keeps_locks)),
        // there is no run that is not
        ("certified", Json::Bool(true)),
    ])
}

/// What is refused, or a fault of the witness.
pub fn failure(subject: &Subject, error: Error) -> Failure {
    match error {
        Error::Refused(refusal) => subject.refused(refusal),
        other => Failure::about(&subject.file, other),
    }
}
