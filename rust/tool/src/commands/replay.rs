//! `bohrali replay`: a recorded run against a region, by the proved program.

use super::{replay_all, Command};
use crate::arguments::{Arguments, Opt, JSON, REGION, SIZE};
use crate::json::Json;
use crate::program::{self, Replayed, Verdict};
use crate::report::{Colour, Failure, Report, Terminal, FOUND, GOOD};
use crate::subject::{self, Subject, Team};
use crate::trace::Trace;
use crate::words::{self, count};
use bohrali::{Region, Size};
use frontend::traces;
use std::ffi::OsStr;
use std::path::Path;
use witness::forbidden;
use witness::view::View;

const STRICT: Opt = Opt {
    name: "--strict",
    value: None,
    help: "status 1 where the run does not finish by the rules",
};

pub const COMMAND: Command = Command {
    name: "replay",
    operands: "FILE TRACE | OUT",
    count: (1, 2),
    summary: "a recorded run: finished, unfinished or forbidden, and where",
    details: &[
        "TRACE has an entry for each step of a thread: two bytes, thread and node, one entry behind the other;
or text, a line 'THREAD NODE' for each, where '#' begins a comment. When a barrier opens there is one
entry for each thread, in thread order. The team has as many threads as --size says, or a first line
'team N', or else one more than the highest number in it; at most 8. OUT is a directory of traces, which
'bohrali trace' writes: all of them are replayed, and those that do not finish are told.",
        "A finished run shows that two threads can be at the nodes that it met, barriers aside; it shows no
never. A forbidden entry says that the chart is not that of the region, that the record is not in order, or
that the program breaks OpenMP, as where threads wait at two barriers. The rule that it breaks is named; that
it is forbidden is proved.",
        "The verdict is that of the proved program replay_trace. It is looked for where BOHRALI_REPLAY says,
beside this command, in ../libexec/bohrali from there, and where it was built.",
    ],
    options: &[REGION, SIZE, STRICT, JSON],
    run,
};

/// A trace with what the program says of it.
pub struct Told<'a> {
    subject: &'a Subject,
    team: Team,
    trace: Trace,
    replayed: Replayed,
}

fn run(arguments: &Arguments, terminal: &Terminal) -> Result<Report, Failure> {
    let team = Team::named(arguments)?;
    let [_, file] = &arguments.operands[..] else {
        return directory(arguments, terminal);
    };
    let subject = Subject::read(&arguments.operands[0])?;
    let told = Told::of(&subject, team, file)?;
    let text = match arguments.has(&JSON) {
        true => told.document(),
        false => told.text(&file.to_string_lossy(), terminal),
    };
    let is_finished = told.replayed.verdict == Verdict::Finished;
    Ok(
        Report::of(text).with_status(match arguments.has(&STRICT) && !is_finished {
            true => FOUND,
            false => GOOD,
        }),
    )
}

/// All traces of a directory.
fn directory(arguments: &Arguments, terminal: &Terminal) -> Result<Report, Failure> {
    let path = Path::new(&arguments.operands[0]);
    let name = path.display().to_string();
    if !traces::is_directory(path) {
        let message = "no directory of traces, which 'bohrali trace' writes; of a region it is 'bohrali replay FILE TRACE'";
        return Err(Failure::about(&name, message));
    }
    if arguments.has(&REGION) || arguments.has(&SIZE) {
        let message = "--region and --size are for one trace, and this is a directory of them";
        return Err(Failure::about(&name, message));
    }
    replay_all::run(path, arguments.has(&JSON), arguments.has(&STRICT), terminal)
}

impl Told<'_> {
    /// What is told of the trace in a file. Without a size the team has as many threads as the trace.
    pub fn of<'a>(subject: &'a Subject, team: Team, file: &OsStr) -> Result<Told<'a>, Failure> {
        // An error of the region is the library's to tell.
        subject.distances(team.region)?;
        let bytes = subject::bytes(file, Trace::MOST_FILE)?;
        let trace = Trace::read(&file.to_string_lossy(), &bytes)?;
        let size = team.size.unwrap_or(Size(trace.threads()));
        let team = Team {
            size: Some(size),
            ..team
        };
        Ok(Told {
            replayed: program::replay(subject, team.region, size.0, &trace)?,
            subject,
            team,
            trace,
        })
    }

    fn text(&self, file: &str, terminal: &Terminal) -> String {
        self.verdict(file, terminal) + &self.met() + &self.met_lines()
    }

    pub fn outcome(&self) -> Verdict {
        self.replayed.verdict
    }

    pub fn subject(&self) -> &Subject {
        self.subject
    }

    pub fn entries(&self) -> usize {
        self.trace.entries()
    }

    /// The entries that the rules allow, thread and node.
    pub fn legal(&self) -> impl Iterator<Item = (u8, u8)> + '_ {
        let legal = match self.replayed.verdict {
            Verdict::Forbidden(index) => index,
            _ => self.trace.entries(),
        };
        (0..legal).filter_map(|x| self.trace.entry(x))
    }

    /// Its region, the threads of its team, and the pairs that it met.
    pub fn shown(&self) -> (Region, usize, &[(u8, u8)]) {
        let threads = self.team.size.map_or(0, |x| x.0);
        (self.team.region, threads, &self.replayed.met)
    }

    /// What becomes of the run, and where.
    pub fn verdict(&self, file: &str, terminal: &Terminal) -> String {
        let table = self.subject.table();
        let entries = count(self.trace.entries(), "entry");
        let colour = match self.replayed.verdict {
            Verdict::Finished => Colour::Good,
            Verdict::Unfinished => Colour::Strong,
            Verdict::Forbidden(_) => Colour::Warm,
        };
        let region = words::region(table, self.team.region);
        let threads = count(self.team.size.map_or(0, |x| x.0), "thread");
        let word = terminal.paint(colour, self.word());
        let mut text = format!("{file}: {word}: {entries}, a team of {threads} in {region}\n");
        if let Some((index, thread, from, to)) = self.forbidden() {
            let from = from.map_or("nowhere".into(), |x| words::node(table, x));
            let to = words::node(table, to);
            text += &format!("entry {index}, counted from 0: no step by the rules leads thread {thread} from {from} to {to}\n");
            text += &self.rule(index).map_or(String::new(), |x| format!("{x}\n"));
        } else if self.replayed.verdict == Verdict::Unfinished {
            for (thread, &node) in self.replayed.at.iter().enumerate() {
                text += &format!("thread {thread} is at {}\n", words::node(table, node));
            }
        }
        text
    }

    /// Entry, thread, and nodes of the step that is not allowed.
    fn forbidden(&self) -> Option<(usize, u8, Option<u8>, u8)> {
        let Verdict::Forbidden(index) = self.replayed.verdict else {
            return None;
        };
        let (thread, to) = self.trace.entry(index)?;
        let from = self.replayed.at.get(usize::from(thread)).copied();
        Some((index, thread, from, to))
    }

    /// The rule by which an entry is forbidden.
    fn rule(&self, index: usize) -> Option<String> {
        let table = self.subject.table();
        let view = View::read(&self.subject.loaded.bytes, self.team.region).ok()?;
        let entries: Vec<(u8, u8)> = (0..=index).filter_map(|x| self.trace.entry(x)).collect();
        let named = |x: usize| words::node(table, u8::try_from(x).unwrap_or(u8::MAX));
        let threads = self.team.size.map_or(0, |x| x.0);
        Some(forbidden::rule(&view, threads, &entries, named)).filter(|x| !x.is_empty())
    }

    /// The pairs met by their source lines: for each place, in the order of the nodes, those that it was met with.
    fn met_lines(&self) -> String {
        let table = self.subject.table();
        let mut met: Vec<(&str, Vec<&str>)> = Vec::new();
        for &(a, b) in &self.replayed.met {
            let [a, b] = [a, b].map(|x| words::own_lines(table, x));
            if a.is_empty() || b.is_empty() {
                continue;
            }
            match met.iter_mut().find(|x| x.0 == a) {
                Some((_, with)) if with.contains(&b) => {}
                Some((_, with)) => with.push(b),
                None => met.push((a, vec![b])),
            }
        }
        let line = |(place, with): (&str, Vec<&str>)| {
            format!("together: {place} with {}\n", with.join(", "))
        };
        met.into_iter().map(line).collect()
    }

    /// The pairs met, so many on a line.
    fn met(&self) -> String {
        let pairs: Vec<String> = self
            .replayed
            .met
            .iter()
            .map(|x| format!("{}-{}", x.0, x.1))
            .collect();
        let lines: Vec<String> = pairs.chunks(12).map(|x| x.join(" ")).collect();
        match lines.is_empty() {
            true => "no two threads were together\n".into(),
            false => format!(
                "nodes at which two threads were together: {}\n",
                lines.join("\n    ")
            ),
        }
    }

    pub fn word(&self) -> &'static str {
        match self.replayed.verdict {
            Verdict::Finished => "finished",
            Verdict::Unfinished => "unfinished",
            Verdict::Forbidden(_) => "forbidden",
        }
    }

    pub fn document(&self) -> String {
        let forbidden = self.forbidden();
        let rule = forbidden.and_then(|x| self.rule(x.0));
        let mut fields = self.subject.asked(self.team);
        fields.extend([
            ("verdict", Json::text(self.word())),
            ("entry", Json::option(forbidden, |x| Json::Number(x.0))),
            ("thread", Json::option(forbidden, |x| Json::number(x.1))),
            (
                "from",
                Json::option(forbidden.and_then(|x| x.2), Json::number),
            ),
            ("to", Json::option(forbidden, |x| Json::number(x.3))),
            ("rule", Json::option(rule, Json::text)),
            ("at", Json::list(&self.replayed.at, |&x| Json::number(x))),
            (
                "met",
                Json::list(&self.replayed.met, |x| Json::list([x.0, x.1], Json::number)),
            ),
        ]);
        Json::Object(fields).document()
    }
}
