//! The programs that replay what stands on their standard input: the library's, and that of the tuned version,
//! which is the benchmark itself with an argument.

use super::processor;
use bohrali::limits::MOST_NODES;
use reference::refusals::decode_checked;
use reference::regions::OUTERMOST;
use reference::replay::{text_by, Outcome, Record, Replay};
use std::env;
use std::fs::{self, File};
use std::io::{self, Read, Write};
use std::path::{Path, PathBuf};
use std::process::{Command, Stdio};
use tuned::replay::{replay, Record as Tuned, Replayed, MOST_THREADS};

/// Makes the benchmark the tuned version's program.
pub const ARGUMENT: &str = "replay";

const TARGET: &str = concat!(env!("CARGO_MANIFEST_DIR"), "/../../target");

/// An input in a file: a pipe would have to be filled while the program runs.
pub struct Stored(PathBuf);

impl Stored {
    pub fn new(name: &str, input: &[u8]) -> Stored {
        let folder = Path::new(TARGET).join("bench");
        fs::create_dir_all(&folder).expect("a folder for inputs");
        let path = folder.join(name);
        fs::write(&path, input).expect("room for an input");
        Stored(path)
    }
}

pub struct Program {
    path: PathBuf,
    arguments: &'static [&'static str],
}

impl Program {
    pub fn library() -> Program {
        let path = Path::new(TARGET).join("bin/replay_trace");
        assert!(path.exists(), "`make proved` builds the program");
        Program {
            path,
            arguments: &[],
        }
    }

    pub fn tuned() -> Program {
        Program {
            path: env::current_exe().expect("the benchmark's own path"),
            arguments: &[ARGUMENT],
        }
    }

    fn command(&self, input: &Stored) -> Command {
        let mut command = Command::new(&self.path);
        let file = File::open(&input.0).expect("a stored input");
        command.args(self.arguments).stdin(file);
        command
    }

    pub fn printed(&self, input: &Stored) -> String {
        let output = self.command(input).output().expect("the program runs");
        String::from_utf8(output.stdout).expect("a program prints text")
    }

    /// Nanoseconds of one run.
    pub fn time(&self, input: &Stored) -> f64 {
        let mut command = self.command(input);
        command.stdout(Stdio::null());
        let before = processor::of_programs();
        let status = command.status().expect("the program runs");
        assert!(status.success(), "{:?}: {status}", self.path);
        processor::of_programs() - before
    }
}

/// The tuned version's program.
pub fn serve() {
    let mut input = Vec::new();
    let read = io::stdin().read_to_end(&mut input);
    read.expect("input to its end");
    let written = io::stdout().write_all(tuned_text(&input).as_bytes());
    written.expect("room for what is printed");
}

/// What it prints.
pub fn tuned_text(input: &[u8]) -> String {
    text_by(input, tuned)
}

/// The tuned replay, as the second implementation gives it.
fn tuned(chart: &[u8], region: u64, trace: &[u8], team: usize) -> Result<Replay, u8> {
    assert_eq!(region, OUTERMOST.into(), "the tuned version has no other");
    let mut records = [Tuned::BLANK; MOST_THREADS];
    let mut sheet = vec![0; MOST_NODES * MOST_NODES];
    let said = replay(chart, trace, team, &mut records, &mut sheet)?;
    let whole = decode_checked(chart)?;
    sheet.truncate(whole.nodes.len() * whole.nodes.len());
    let constructs = whole.constructs.len();
    let record = |own: &Tuned| Record {
        node: own.node.into(),
        counts: own.counts[..constructs].to_vec(),
        taken: (0..constructs).map(|c| own.taken >> c & 1 == 1).collect(),
    };
    Ok(Replay {
        outcome: match said {
            Replayed::Finished => Outcome::Finished,
            Replayed::Unfinished => Outcome::Unfinished,
            Replayed::Forbidden(index) => Outcome::Forbidden(index),
        },
        records: records[..team].iter().map(record).collect(),
        sheet,
    })
}
