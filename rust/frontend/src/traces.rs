//! Traces (02, Note 11) out of a recorder's log: one for each instance of a region, with the table of its
//! chart, in a directory with an index traces.txt.

use crate::directory::{read_notes, safe, Directory, Folder, Held};
use crate::log::{self, Instance, Log};
use crate::map::Map;
use crate::notes::{Key, Notes};
use crate::problem::Problem;
use crate::walk::{Filled, Step, Walks};
use region::load;
use std::collections::{BTreeMap, VecDeque};
use std::fmt::Write;
use std::path::{Path, PathBuf};

const INDEX: &str = "traces.txt";

/// The most entries of a trace: the length of their bytes has two.
pub const MOST_ENTRIES: usize = u16::MAX as usize / 2;

/// The most threads of a team that is replayed.
pub const MOST_THREADS: usize = 8;

/// A thread's step in a trace.
#[derive(Clone, Copy, Debug, PartialEq, Eq)]
pub struct Entry {
    pub thread: u8,
    pub node: u8,
    pub filled: Option<Filled>,
}

#[derive(Debug)]
pub struct Trace {
    pub name: String,
    /// The place of its region in the directory of tables.
    region: usize,
    pub threads: usize,
    pub entries: Vec<Entry>,
    /// Why it is not all of its instance.
    pub cut: Option<String>,
}

#[derive(Debug, Default)]
pub struct Traces {
    pub traces: Vec<Trace>,
    pub notes: Notes,
}

/// Whether there is such a directory at a path.
pub fn is_directory(path: &Path) -> bool {
    path.join(INDEX).is_file()
}

impl Traces {
    /// Those of a log, by the tables of the program that wrote it.
    pub fn read(log: &Path, directory: &Directory) -> Result<Traces, Vec<Problem>> {
        let name = log.display().to_string();
        let bytes =
            load::bytes(log, log::MOST_BYTES).map_err(|x| vec![Problem::whole(&name, x)])?;
        Traces::of(&name, &bytes, directory)
    }

    pub fn of(name: &str, log: &[u8], directory: &Directory) -> Result<Traces, Vec<Problem>> {
        let log = Log::read(name, log).map_err(|x| vec![x])?;
        let maps: Result<Vec<Map>, Problem> = directory.regions.iter().map(Held::map).collect();
        let maps = maps.map_err(|x| vec![x])?;
        let mut making = Making::new(directory, &maps);
        for (number, instance) in log.instances.iter().enumerate() {
            let key = (instance.function, instance.directive);
            let Some(&region) = making.regions.get(&key) else {
                let message = format!(
                    "instance {number} is of a region that the tables do not have: the log is of another program than they are, or of another build of it"
                );
                return Err(vec![Problem::whole(name, message)]);
            };
            making.instance(region, instance);
        }
        Ok(making.finish(&log))
    }

    /// Writes them, in place of those that were written there before.
    pub fn write(&self, path: &Path, directory: &Directory) -> Result<(), Problem> {
        let folder = Folder::begin(path, INDEX, &self.notes)?;
        let mut tables = BTreeMap::new();
        for trace in &self.traces {
            let held = &directory.regions[trace.region];
            folder.put(&format!("{}.trace", trace.name), &trace.text(&held.name))?;
            tables.insert(trace.region, held);
        }
        for held in tables.values() {
            if let Some(loaded) = &held.loaded {
                folder.put(&format!("{}.csv", held.name), &loaded.table.write())?;
            }
        }
        Ok(())
    }
}

impl Trace {
    fn text(&self, region: &str) -> String {
        let filled = self.entries.iter().filter(|x| x.filled.is_some()).count();
        let mut text = format!(
            "# {}: region {region}, {} entries, {filled} of them filled in\nteam {}\n",
            self.name,
            self.entries.len(),
            self.threads
        );
        if let Some(why) = &self.cut {
            writeln!(text, "# cut: {why}").ok();
        }
        for entry in &self.entries {
            let mark = entry
                .filled
                .map_or(String::new(), |x| format!(" # {}", x.words()));
            writeln!(text, "{} {}{mark}", entry.thread, entry.node).ok();
        }
        text
    }
}

impl Filled {
    pub fn words(self) -> &'static str {
        match self {
            Filled::NoTurn => "the end of a loop or sections without a turn",
            Filled::End => "the end of a construct",
            Filled::Mute => "code without a record",
        }
    }
}

/// A trace of a directory, and the table of its region.
pub struct Listed {
    pub name: String,
    pub trace: PathBuf,
    pub table: PathBuf,
}

/// What a directory of traces lists, and what else its index says.
pub fn listed(path: &Path) -> Result<(Vec<Listed>, Notes), Problem> {
    let index = path.join(INDEX);
    let notes = read_notes(&index)?;
    let each = notes.of(Key::Trace).map(|note| {
        Ok(Listed {
            name: note.subject.clone(),
            trace: path.join(format!("{}.trace", safe(&index, &note.subject)?)),
            table: path.join(format!("{}.csv", safe(&index, &note.reason)?)),
        })
    });
    let all: Result<Vec<Listed>, Problem> = each.collect();
    Ok((all?, notes))
}

/// Traces as they are made, instance by instance.
struct Making<'a> {
    directory: &'a Directory,
    maps: &'a [Map],
    regions: BTreeMap<(u64, u32), usize>,
    walks: BTreeMap<usize, Walks<'a>>,
    /// How many instances of each region there were.
    met: BTreeMap<usize, usize>,
    left_out: BTreeMap<(usize, String), usize>,
    made: Vec<Trace>,
}

impl<'a> Making<'a> {
    fn new(directory: &'a Directory, maps: &'a [Map]) -> Making<'a> {
        let numbered = maps.iter().enumerate();
        Making {
            directory,
            maps,
            // Of one text compiled twice the first stands for both.
            regions: numbered
                .rev()
                .map(|(number, x)| ((x.function, x.directive), number))
                .collect(),
            walks: BTreeMap::new(),
            met: BTreeMap::new(),
            left_out: BTreeMap::new(),
            made: Vec::new(),
        }
    }

    fn instance(&mut self, region: usize, instance: &Instance) {
        let number = self.met.entry(region).or_default();
        *number += 1;
        let name = format!("{}-{number}", self.directory.regions[region].name);
        let made = self.made(region, instance);
        match made {
            Ok((threads, entries, cut)) => self.made.push(Trace {
                name,
                region,
                threads,
                entries,
                cut,
            }),
            Err(why) => *self.left_out.entry((region, why)).or_default() += 1,
        }
    }

    /// The team, its entries, and why they are not all; or why there is no trace.
    fn made(
        &mut self,
        region: usize,
        instance: &Instance,
    ) -> Result<(usize, Vec<Entry>, Option<String>), String> {
        let Some(loaded) = &self.directory.regions[region].loaded else {
            return Err("the region has no chart".into());
        };
        let threads = match instance.threads {
            None => return Err("the log ends before its team is known".into()),
            Some(threads) if threads > MOST_THREADS => {
                return Err(format!(
                    "a team of {threads}, and {MOST_THREADS} is the most that is replayed"
                ));
            }
            Some(threads) => threads,
        };
        let map = &self.maps[region];
        let walks = self.walks.entry(region);
        let walks = walks.or_insert_with(|| Walks::new(&loaded.table.chart, map));
        let steps = (0..threads).map(|x| walks.steps(instance, x).into());
        let steps: Vec<VecDeque<Step>> = steps.collect();
        let (entries, left) = merged(walks, steps);
        let cut = if entries.len() == MOST_ENTRIES && left > 0 {
            Some(format!("at {MOST_ENTRIES} entries, the most of a trace"))
        } else if !instance.is_whole {
            Some("the log does not have all of it".into())
        } else {
            None
        };
        Ok((threads, entries, cut))
    }

    fn finish(self, log: &Log) -> Traces {
        let mut notes = Notes::default();
        let region = |x: usize| self.directory.regions[x].name.as_str();
        let mut tables: Vec<usize> = self.made.iter().map(|x| x.region).collect();
        tables.sort_unstable();
        tables.dedup();
        for table in tables {
            notes.add(Key::Table, region(table), "");
        }
        let mut filled: BTreeMap<Filled, usize> = BTreeMap::new();
        for trace in &self.made {
            notes.add(Key::Trace, trace.name.as_str(), region(trace.region));
            if let Some(why) = &trace.cut {
                notes.add(Key::Cut, trace.name.as_str(), why.as_str());
            }
            for why in trace.entries.iter().filter_map(|x| x.filled) {
                *filled.entry(why).or_default() += 1;
            }
        }
        for ((number, why), count) in &self.left_out {
            let why = match count {
                1 => why.clone(),
                _ => format!("{count} times {why}"),
            };
            notes.add(Key::LeftOut, region(*number), why);
        }
        for (why, count) in filled {
            notes.add(Key::FilledIn, count.to_string(), why.words());
        }
        note_log(log, &mut notes);
        Traces {
            traces: self.made,
            notes,
        }
    }
}

/// What the log as a whole lacks.
fn note_log(log: &Log, notes: &mut Notes) {
    if log.is_open {
        notes.add(
            Key::Log,
            "the program did not end by itself",
            "what it had written is used",
        );
    }
    if log.beyond > 0 {
        let why = format!("{} entries behind the first hole are not used", log.beyond);
        notes.add(Key::Log, "it ends in a hole", why);
    }
    if log.left_out > 0 {
        let why = format!("{} entries had no room", log.left_out);
        notes.add(Key::Log, "it is full", why);
    }
}

/// The steps of all threads in the order of the log. When all threads are at one barrier the step of each is
/// next, in thread order. Returns also how many steps are left.
fn merged(walks: &Walks, mut steps: Vec<VecDeque<Step>>) -> (Vec<Entry>, usize) {
    let mut at = vec![0; steps.len()];
    let mut entries: Vec<Entry> = Vec::new();
    let mut release = 0..0;
    while entries.len() < MOST_ENTRIES {
        let gathered = at.iter().all(|&x| x == at[0]) && walks.is_barrier(at[0]);
        if release.is_empty() && gathered && at[0] != walks.finish() {
            if steps.iter().any(VecDeque::is_empty) {
                break;
            }
            release = 0..steps.len();
        }
        let first = (0..steps.len()).filter_map(|x| Some((steps[x].front()?.place, x)));
        let Some(thread) = release.next().or_else(|| first.min().map(|x| x.1)) else {
            break;
        };
        let Some(step) = steps[thread].pop_front() else {
            break;
        };
        at[thread] = step.node;
        entries.push(Entry {
            thread: thread as u8,
            node: step.node,
            filled: step.filled,
        });
    }
    (entries, steps.iter().map(VecDeque::len).sum())
}
