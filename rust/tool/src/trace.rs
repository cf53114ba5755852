//! A recorded run: which thread went to which node, in order.

use crate::lines::{self, Line};
use crate::report::Failure;
use region::quoted;

/// The entries of a run, thread and node.
pub struct Trace {
    /// As the proved program takes them, two bytes an entry.
    pub bytes: Vec<u8>,
    /// The threads of the team, where the text says so.
    team: Option<usize>,
}

impl Trace {
    /// The most bytes of entries: their length has two bytes.
    const MOST: usize = u16::MAX as usize;

    /// The most bytes of a file, where each entry may be a line.
    pub const MOST_FILE: u64 = 1 << 20;

    /// The most threads of a team that is replayed.
    const MOST_THREADS: u8 = 8;

    /// Bytes, or text: the first byte of entries is a thread's number, which no text begins with.
    pub fn read(file: &str, bytes: &[u8]) -> Result<Trace, Failure> {
        let (team, bytes) = match bytes.first() {
            Some(&first) if first >= Trace::MOST_THREADS => {
                let lines = lines::of(file, bytes)?;
                let team = lines.first().and_then(team);
                let entries = &lines[usize::from(team.is_some())..];
                (team, lines::each(file, entries, entry)?.into_flattened())
            }
            _ => (None, bytes.to_vec()),
        };
        match bytes.len() <= Trace::MOST {
            true => Ok(Trace { bytes, team }),
            false => {
                let most = Trace::MOST / 2;
                Err(Failure::about(
                    file,
                    format!("over {most} entries, which are the most"),
                ))
            }
        }
    }

    pub fn entries(&self) -> usize {
        self.bytes.len() / 2
    }

    /// The thread and the node of an entry, from 0.
    pub fn entry(&self, index: usize) -> Option<(u8, u8)> {
        let entry = self.bytes.chunks_exact(2).nth(index)?;
        Some((entry[0], entry[1]))
    }

    /// The threads of its team: as many as it says, or else one more than the highest.
    pub fn threads(&self) -> usize {
        let threads = self.bytes.iter().step_by(2);
        let met = threads.max().map_or(1, |&x| usize::from(x) + 1);
        self.team.unwrap_or(met)
    }
}

/// The team that a first line names.
fn team(line: &Line) -> Option<usize> {
    line.text.strip_prefix("team ")?.trim().parse().ok()
}

fn entry(line: &Line) -> Result<[u8; 2], String> {
    let wrong = || {
        format!(
            "{} found, 'THREAD NODE' expected, two numbers",
            quoted(line.text)
        )
    };
    let words: Vec<&str> = line.text.split_whitespace().collect();
    match words[..] {
        [thread, node] => {
            let number = |x: &str| x.parse().map_err(|_| wrong());
            Ok([number(thread)?, number(node)?])
        }
        _ => Err(wrong()),
    }
}
