//! The log of a recorded program, as frontend/gcc/record.c writes it: which nodes the threads of regions
//! came to, in the order of one counter. It ends at the first hole, where a thread had drawn its place and
//! the program ended before it could write there: what stands before is a prefix of the run.

use crate::map::Marked;
use crate::problem::Problem;
use std::collections::BTreeMap;

/// The most bytes that are read of a log.
pub(crate) const MOST_BYTES: u64 = 1 << 30;

const WORDS: &[u8] = b"bohrali-log ";
const VERSION: &[u8] = b"1\n\0\0";
const BYTES_HEADER: usize = 64;
const BYTES_ENTRY: usize = 24;

/// What a thread did.
#[derive(Clone, Copy, Debug, PartialEq, Eq)]
pub(crate) enum Event {
    At(Marked),
    /// It was told whether it takes a single or a section.
    Claim,
}

#[derive(Clone, Copy, Debug)]
pub(crate) struct Entry {
    /// Its place in the log.
    pub place: usize,
    pub thread: usize,
    pub event: Event,
}

/// A region that was run once.
#[derive(Debug)]
pub(crate) struct Instance {
    pub function: u64,
    pub directive: u32,
    /// None where the log ends before its first thread has begun.
    pub threads: Option<usize>,
    pub entries: Vec<Entry>,
    /// Its end is in the log, and nothing of it was left out.
    pub is_whole: bool,
    is_over: bool,
}

#[derive(Debug, Default)]
pub(crate) struct Log {
    /// In the order in which they began.
    pub instances: Vec<Instance>,
    /// The program did not close it: it was killed, or became another one.
    pub is_open: bool,
    /// Entries behind the first hole.
    pub beyond: usize,
    /// Entries for which there was no room.
    pub left_out: u64,
}

/// Why bytes are no log.
type Outcome<T> = Result<T, String>;

fn little(bytes: &[u8]) -> u64 {
    bytes
        .iter()
        .rev()
        .fold(0, |high, &x| high << 8 | u64::from(x))
}

/// An entry as it stands in the file.
struct Raw {
    function: u64,
    instance: u32,
    node: u32,
    thread: u16,
    depth: u8,
    kind: u8,
}

impl Raw {
    fn read(bytes: &[u8]) -> Raw {
        Raw {
            function: little(&bytes[..8]),
            instance: little(&bytes[8..12]) as u32,
            node: little(&bytes[12..16]) as u32,
            thread: little(&bytes[16..18]) as u16,
            depth: bytes[18],
            kind: bytes[19],
        }
    }
}

impl Log {
    pub fn read(path: &str, bytes: &[u8]) -> Result<Log, Problem> {
        Log::of(bytes).map_err(|x| Problem::whole(path, x))
    }

    fn of(bytes: &[u8]) -> Outcome<Log> {
        let (header, rest) = split(bytes)?;
        let mut log = Log {
            is_open: little(&header[24..32]) == 0,
            left_out: little(&header[32..40]),
            ..Log::default()
        };
        let said = little(&header[16..24]);
        let found = (rest.len() / BYTES_ENTRY) as u64;
        if !rest.len().is_multiple_of(BYTES_ENTRY) || (!log.is_open && said > found) {
            return Err(format!(
                "the log is cut off: {} bytes hold {found} entries, and {}",
                bytes.len(),
                match log.is_open {
                    true => "a part of one".into(),
                    false => format!("{said} are said to be there"),
                }
            ));
        }
        if !log.is_open && said < found {
            return Err(format!(
                "{said} entries are said to be there, and there are {found}: are these several logs?"
            ));
        }
        log.gather(rest)?;
        Ok(log)
    }

    fn gather(&mut self, bytes: &[u8]) -> Outcome<()> {
        let mut numbers = BTreeMap::new();
        let mut is_past_hole = false;
        for (place, bytes) in bytes.chunks_exact(BYTES_ENTRY).enumerate() {
            let raw = Raw::read(bytes);
            let is_hole = raw.kind == 0;
            if raw.kind > 6 || little(&bytes[20..]) != 0 || raw.depth > 16 {
                return Err(format!("entry {place} is none that the recorder writes"));
            }
            if is_past_hole || is_hole {
                is_past_hole = true;
                self.beyond += usize::from(!is_hole);
                continue;
            }
            self.take(place, &raw, &mut numbers)
                .map_err(|x| format!("entry {place}: {x}"))?;
        }
        Ok(())
    }

    fn take(&mut self, place: usize, raw: &Raw, numbers: &mut BTreeMap<u32, usize>) -> Outcome<()> {
        let number = raw.instance;
        if raw.kind == 3 {
            if numbers.insert(number, self.instances.len()).is_some() {
                return Err(format!("instance {number} begins a second time"));
            }
            self.instances.push(Instance {
                function: raw.function,
                directive: raw.node,
                threads: None,
                entries: Vec::new(),
                is_whole: false,
                is_over: false,
            });
            return Ok(());
        }
        let Some(&own) = numbers.get(&number) else {
            return Err(format!("instance {number} has not begun"));
        };
        self.instances[own].take(place, raw)
    }
}

impl Instance {
    fn take(&mut self, place: usize, raw: &Raw) -> Outcome<()> {
        if self.is_over {
            return Err(format!("instance {} is over", raw.instance));
        }
        let event = match raw.kind {
            4 => {
                let threads = raw.node as usize;
                let is_one = self.threads.replace(threads).is_none() && threads > 0;
                return is_one.then_some(()).ok_or_else(|| {
                    format!("a team of {threads}, or a second one, in one instance")
                });
            }
            5 => {
                (self.is_over, self.is_whole) = (true, raw.node == 0);
                return self.check();
            }
            6 => return Ok(()),
            2 => Event::Claim,
            _ => Event::At(Marked {
                function: raw.function,
                node: raw.node,
                depth: raw.depth,
            }),
        };
        self.entries.push(Entry {
            place,
            thread: raw.thread.into(),
            event,
        });
        Ok(())
    }

    /// An instance that is over has a team, and no other threads than those of its team.
    fn check(&self) -> Outcome<()> {
        let threads = self.threads.unwrap_or(0);
        match self.entries.iter().find(|x| x.thread >= threads) {
            Some(entry) => Err(format!(
                "thread {} is none of a team of {threads}",
                entry.thread
            )),
            None => Ok(()),
        }
    }
}

/// Header and entries.
fn split(bytes: &[u8]) -> Outcome<(&[u8], &[u8])> {
    let Some(rest) = bytes.strip_prefix(WORDS) else {
        return Err(
            "this is no log of a recorded program: it does not begin with 'bohrali-log'".into(),
        );
    };
    if !rest.starts_with(VERSION) {
        let end = rest.iter().position(|&x| x == b'\n').unwrap_or(0);
        let version = String::from_utf8_lossy(&rest[..end.min(20)]).into_owned();
        return Err(format!(
            "this is a log of version {version}, and version 1 is read: link with the recorder of this release"
        ));
    }
    bytes
        .split_at_checked(BYTES_HEADER)
        .ok_or_else(|| "the log is cut off inside its header".into())
}
