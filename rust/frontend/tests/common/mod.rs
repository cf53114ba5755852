//! Flows and programs of the tests.
#![allow(dead_code)]

use frontend::{ask, directory, Asked, Directory, Program};
use region::Lines;
use std::env;
use std::fs;
use std::path::{Path, PathBuf};
use std::sync::atomic::{AtomicUsize, Ordering};

/// Programs of one unit, each by itself.
pub const PROGRAMS: [&str; 17] = [
    "hand/all1.c",
    "hand/h1.c",
    "hand/h2.c",
    "hand/h3.cpp",
    "hand/h4.f90",
    "hand/h5.c",
    "hand/h6.c",
    "hand/locks1.c",
    "hand/locks2.c",
    "narrow/n1.c",
    "narrow/n2.c",
    "narrow/n3.c",
    "stress/m1.c",
    "stress/s1.c",
    "stress/s2.c",
    "stress/s3.cc",
    "stress/s4.f90",
];

/// The units of one program.
pub const UNITS: [&str; 3] = ["units/one.c", "units/two.c", "units/three.c"];

pub fn tests() -> PathBuf {
    Path::new(env!("CARGO_MANIFEST_DIR")).join("tests")
}

/// The flows of programs that are there.
pub fn flow_files(level: &str, programs: &[&str]) -> Vec<PathBuf> {
    let stored = tests().join("flows");
    let flows = env::var_os("BOHRALI_FLOWS").map_or(stored, PathBuf::from);
    let path = |x: &&str| flows.join(level).join(format!("{x}.flow"));
    programs.iter().map(path).filter(|x| x.exists()).collect()
}

/// The flows of sources that were not written for these tests, by name.
pub fn real_flows() -> Vec<PathBuf> {
    let entries = fs::read_dir(tests().join("flows/real")).expect("flows");
    let mut flows: Vec<PathBuf> = entries.filter_map(|x| Some(x.ok()?.path())).collect();
    flows.sort();
    flows
}

pub fn stored_flows() -> Vec<PathBuf> {
    let mut flows = flow_files("O2", &PROGRAMS);
    flows.extend(real_flows());
    flows
}

/// What a program expects of two of its lines.
#[derive(Debug)]
pub struct Expectation {
    pub lines: [Lines; 2],
    pub verdict: String,
}

/// The source of a program.
pub fn source(program: &str) -> Option<String> {
    fs::read_to_string(tests().join("programs").join(program)).ok()
}

pub fn expectations(program: &str) -> Vec<Expectation> {
    let text = source(program).expect("the program is there");
    let marked = |mark: &str| {
        let mark = format!("@{mark}");
        let row = text.lines().position(|x| x.contains(&mark)).expect(&mark);
        let line = u32::try_from(row + 1).expect("a line");
        Lines {
            file: program.into(),
            first: line,
            last: line,
        }
    };
    let rows = text.lines().filter_map(|x| x.split_once("EXPECT "));
    rows.map(|(_, rest)| {
        let words: Vec<&str> = rest.split_whitespace().collect();
        Expectation {
            lines: [marked(words[0]), marked(words[1])],
            verdict: words[2].into(),
        }
    })
    .collect()
}

pub fn asked(directory: &Directory, one: &Lines, other: &Lines) -> Asked {
    ask(directory, [one, other], &source)
}

/// A directory that goes with the test.
pub struct Scratch(pub PathBuf);

impl Scratch {
    pub fn new() -> Scratch {
        static COUNT: AtomicUsize = AtomicUsize::new(0);
        let number = COUNT.fetch_add(1, Ordering::Relaxed);
        let name = format!("bohrali-frontend-{}-{number}", std::process::id());
        Scratch(env::temp_dir().join(name))
    }

    /// The tables of flows, written and read again.
    pub fn directory(&self, flows: &[PathBuf]) -> Directory {
        let program = Program::read(flows).expect("flows");
        let (regions, notes) = program.regions();
        directory::write(&self.0, &regions, &notes).expect("a directory");
        Directory::read(&self.0).expect("tables")
    }
}

impl Drop for Scratch {
    fn drop(&mut self) {
        fs::remove_dir_all(&self.0).ok();
    }
}
