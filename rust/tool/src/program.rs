//! The proved program replay_trace: where it is, how it is run, and what it prints.

use crate::report::Failure;
use crate::subject::Subject;
use crate::trace::Trace;
use bohrali::Region;
use std::env;
use std::io::{self, Write};
use std::path::{Path, PathBuf};
use std::process::{Command, Stdio};
use std::thread;

const NAME: &str = "replay_trace";

/// What becomes of a run.
#[derive(Clone, Copy, PartialEq, Eq)]
pub enum Verdict {
    Finished,
    Unfinished,
    /// The index of the first entry that the team rules do not allow.
    Forbidden(usize),
}

/// What the program says of a trace.
pub struct Replayed {
    pub verdict: Verdict,
    /// The node of each thread, as at the last legal entry.
    pub at: Vec<u8>,
    /// The pairs of nodes at which two threads have been together.
    pub met: Vec<(u8, u8)>,
}

/// Replays a trace.
pub fn replay(
    subject: &Subject,
    region: Region,
    size: usize,
    trace: &Trace,
) -> Result<Replayed, Failure> {
    let path = found()?;
    // A number that no byte holds is no region and no size of a team; 0 is no size either.
    let byte = |x: usize, none: u8| u8::try_from(x).unwrap_or(none);
    let length = u16::try_from(trace.bytes.len()).unwrap_or(u16::MAX);
    let mut input = vec![byte(region.number(), 254), byte(size, 0)];
    input.extend(length.to_le_bytes());
    input.extend(&trace.bytes);
    input.extend(&subject.loaded.bytes);
    let wrong = |x: String| Failure::about(&path.to_string_lossy(), x);
    let printed = printed(&path, &input).map_err(|x| wrong(format!("cannot be run: {x}")))?;
    let first = printed.lines().next().unwrap_or("");
    if first == "refused 22" {
        let message = format!(
            "refused 22: the trace is an odd number of bytes, or a team of {size} is not one of 1 to 8"
        );
        return Err(Failure::about(&subject.file, message));
    }
    read(&printed).ok_or_else(|| wrong(format!("printed '{first}', which is no verdict")))
}

/// The first place where the program is.
fn found() -> Result<PathBuf, Failure> {
    if let Some(named) = env::var_os("BOHRALI_REPLAY") {
        return Ok(named.into());
    }
    let own = env::current_exe().unwrap_or_default();
    let folder = own.parent().unwrap_or(Path::new("."));
    let built = Path::new(env!("CARGO_MANIFEST_DIR")).join("../../target/bin");
    let folders = [folder.into(), folder.join("../libexec/bohrali"), built];
    let mut paths = folders.into_iter().map(|x| x.join(NAME));
    paths.find(|x| x.is_file()).ok_or_else(|| {
        Failure::words(format!(
            "the proved program {NAME} was not found: BOHRALI_REPLAY may name it, 'make proved' builds it"
        ))
    })
}

fn printed(path: &Path, input: &[u8]) -> io::Result<String> {
    let mut child = Command::new(path)
        .stdin(Stdio::piped())
        .stdout(Stdio::piped())
        .spawn()?;
    let mut pipe = child.stdin.take();
    let output = thread::scope(|scope| {
        // Beside the reading, since a pipe holds only so much; a program need not read all of it.
        scope.spawn(move || pipe.take().map(|mut x| x.write_all(input)));
        child.wait_with_output()
    })?;
    match output.status.success() {
        true => Ok(String::from_utf8_lossy(&output.stdout).into_owned()),
        false => Err(io::Error::other(output.status.to_string())),
    }
}

fn read(printed: &str) -> Option<Replayed> {
    let mut lines = printed.lines().map(|x| x.split(' ').collect::<Vec<_>>());
    let verdict = match lines.next()?[..] {
        ["finished"] => Verdict::Finished,
        ["unfinished"] => Verdict::Unfinished,
        ["forbidden", index] => Verdict::Forbidden(index.parse().ok()?),
        _ => return None,
    };
    let mut replayed = Replayed {
        verdict,
        at: Vec::new(),
        met: Vec::new(),
    };
    for line in lines {
        match line[..] {
            ["thread", _, "node", node, ..] => replayed.at.push(node.parse().ok()?),
            ["met", a, b] => replayed.met.push((a.parse().ok()?, b.parse().ok()?)),
            _ => return None,
        }
    }
    Some(replayed)
}
