//! Directories of region tables, which `bohrali regions` writes out of a compiled program.

use crate::arguments::{Arguments, REGION, SIZE};
use crate::report::Failure;
use crate::subject::Subject;
use frontend::{directory, Asked, Directory, Held, Problem};
use region::{quoted, Lines};
use std::fs;
use std::path::Path;

/// When what is told of a directory's charts is so in the program.
pub const WHEN: &str = "\
A never of the charts is one of the program where the program obeys OpenMP (each barrier is met by all
threads of a team or by none), the run finishes, all code was compiled with the plugin and the same
options, and no longjmp, signal or second host thread comes into a region. Proved: from chart to answer.
Tested: from source to chart. docs/FRONTEND.md says more.
";

pub const HELP: &str =
    "DIR is a directory of region tables, which 'bohrali regions' writes; it stands for the whole
program. --region and --size are for one file.";

/// The directory that a command is about, where its first operand is one.
pub fn named(arguments: &Arguments) -> Result<Option<Directory>, Failure> {
    let path = Path::new(&arguments.operands[0]);
    if !directory::is_directory(path) {
        return Ok(None);
    }
    if arguments.has(&REGION) || arguments.has(&SIZE) {
        let message = "--region and --size are for one file, and this is a directory of tables";
        return Err(Failure::about(&path.display().to_string(), message));
    }
    read(path).map(Some)
}

pub fn read(path: &Path) -> Result<Directory, Failure> {
    Directory::read(path).map_err(failure)
}

/// What is wrong with files, all at once.
pub fn failure(problems: Vec<Problem>) -> Failure {
    let mut failures = problems.iter().map(|x| match x.row {
        Some(row) => Failure::about(&x.path, format!("row {row}: {}", x.message)),
        None => Failure::about(&x.path, &x.message),
    });
    let first = failures.next();
    failures.fold(first.unwrap_or_else(|| Failure::words("")), Failure::and)
}

/// A region with its function and its place.
pub fn region(held: &Held) -> String {
    match held.notes.of(frontend::Key::Region).next() {
        Some(note) => format!("{} ({} at {})", held.name, note.subject, note.reason),
        None => held.name.clone(),
    }
}

/// A region's table as one file; none where it has none.
pub fn subject(held: &Held) -> Option<Subject> {
    Some(Subject {
        file: held.table.display().to_string(),
        loaded: held.loaded.clone()?,
    })
}

/// The answer for two source places as they were typed.
pub fn ask(directory: &Directory, words: [&str; 2]) -> Result<Asked, String> {
    let place = |word: &str| {
        Lines::read(word).ok_or_else(|| format!("{} found, FILE:LINE expected", quoted(word)))
    };
    let places = [&place(words[0])?, &place(words[1])?];
    Ok(frontend::ask(directory, places, &source))
}

/// The text of a source file, whatever its letters are.
fn source(path: &str) -> Option<String> {
    let bytes = fs::read(path).ok()?;
    Some(String::from_utf8_lossy(&bytes).into_owned())
}
