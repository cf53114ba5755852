//! A directory of region tables: for each region NAME.csv, NAME.txt with its notes, and NAME.map with what a
//! recorded run has for its nodes; program.txt for the program as a whole, with the names of all tables, so that none is missed and no old one is read.

use crate::hash::hash;
use crate::map::Map;
use crate::notes::{Key, Notes};
use crate::problem::Problem;
use crate::reader::MOST_BYTES as MOST_UNITS;
use crate::regions::RegionChart;
use crate::units::Units;
use region::load::{self, Loaded, MOST_BYTES};
use std::fs;
use std::io;
use std::path::{Path, PathBuf};

const PROGRAM: &str = "program.txt";
const UNITS: &str = "units.txt";

/// A region of a directory.
#[derive(Debug)]
pub struct Held {
    pub name: String,
    pub table: PathBuf,
    /// None where the notes say why.
    pub loaded: Option<Loaded>,
    pub notes: Notes,
}

#[derive(Debug)]
pub struct Directory {
    pub regions: Vec<Held>,
    /// Of the program as a whole.
    pub notes: Notes,
}

/// Whether there is such a directory at a path.
pub fn is_directory(path: &Path) -> bool {
    path.join(PROGRAM).is_file()
}

/// Writes the tables of a program, in place of those that were written there before.
pub fn write(path: &Path, regions: &[RegionChart], notes: &Notes) -> Result<(), Problem> {
    // The index first, so that what is half written is known for what it is.
    let folder = Folder::begin(path, PROGRAM, notes)?;
    for region in regions {
        if let Some(table) = &region.table {
            folder.put(&format!("{}.csv", region.name), &table.write())?;
        }
        folder.put(&format!("{}.txt", region.name), &region.notes.write())?;
        folder.put(&format!("{}.map", region.name), &region.map.write())?;
    }
    Ok(())
}

/// A directory that is written as a whole, with an index of what is in it.
pub(crate) struct Folder<'a>(&'a Path);

impl Folder<'_> {
    /// In place of what was written there before with an index of this name.
    pub fn begin<'a>(path: &'a Path, index: &str, notes: &Notes) -> Result<Folder<'a>, Problem> {
        clear(path, index)?;
        fs::create_dir_all(path).map_err(|x| unwritten(path, &x))?;
        let folder = Folder(path);
        folder.put(index, &notes.write())?;
        Ok(folder)
    }

    pub fn put(&self, name: &str, text: &str) -> Result<(), Problem> {
        let file = self.0.join(name);
        fs::write(&file, text).map_err(|x| unwritten(&file, &x))
    }
}

fn unwritten(path: &Path, error: &io::Error) -> Problem {
    let message = format!("cannot be written: {error}");
    Problem::whole(&path.display().to_string(), message)
}

/// Writes what decisions need, behind the tables.
pub fn write_units(path: &Path, units: &Units) -> Result<(), Problem> {
    Folder(path).put(UNITS, &units.write(&tables_hash(path)?))
}

/// What decisions need, if the tables are as they were written.
pub fn read_units(path: &Path) -> Result<Units, Problem> {
    let file = path.join(UNITS);
    let name = file.display().to_string();
    let bytes = load::bytes(&file, MOST_UNITS).map_err(|x| Problem::whole(&name, x))?;
    let (units, tables) = Units::read(&name, &String::from_utf8_lossy(&bytes))?;
    if tables != tables_hash(path)? {
        let message =
            "the tables beside it were changed after they were written; 'bohrali regions' makes them";
        return Err(Problem::whole(&name, message));
    }
    Ok(units)
}

/// The hash of all tables and notes.
fn tables_hash(path: &Path) -> Result<String, Problem> {
    let program = path.join(PROGRAM);
    let mut files = vec![program.clone()];
    for note in read_notes(&program)?.of(Key::Table) {
        let name = safe(&program, &note.subject)?;
        let table = note.reason.is_empty().then(|| format!("{name}.csv"));
        files.extend(table.map(|x| path.join(x)));
        files.push(path.join(format!("{name}.txt")));
    }
    let mut all = Vec::new();
    for file in files {
        let name = file.display().to_string();
        all.extend(load::bytes(&file, MOST_BYTES).map_err(|x| Problem::whole(&name, x))?);
        all.push(0);
    }
    Ok(hash(&all))
}

/// Takes away what an earlier run wrote; a directory of anything else is left alone.
fn clear(path: &Path, index: &str) -> Result<(), Problem> {
    let name = path.display().to_string();
    let is_empty = match fs::read_dir(path) {
        Ok(mut entries) => entries.next().is_none(),
        Err(error) if error.kind() == io::ErrorKind::NotFound => true,
        Err(error) => return Err(Problem::whole(&name, format!("cannot be read: {error}"))),
    };
    if is_empty {
        return Ok(());
    }
    let index_path = path.join(index);
    if !index_path.is_file() {
        let message = format!("holds files and no {index}, so it is none that this command writes; name one that is new or empty");
        return Err(Problem::whole(&name, message));
    }
    let notes = read_notes(&index_path)?;
    let kinds = [
        (Key::Table, &["csv", "txt", "map"][..]),
        (Key::Trace, &["trace"][..]),
    ];
    for (key, endings) in kinds {
        for (note, ending) in notes
            .of(key)
            .flat_map(|x| endings.iter().map(move |y| (x, y)))
        {
            remove(&path.join(format!("{}.{ending}", safe(&index_path, &note.subject)?)))?;
        }
    }
    Ok(())
}

fn remove(file: &Path) -> Result<(), Problem> {
    match fs::remove_file(file) {
        Err(error) if error.kind() != io::ErrorKind::NotFound => {
            let message = format!("cannot be replaced: {error}");
            Err(Problem::whole(&file.display().to_string(), message))
        }
        _ => Ok(()),
    }
}

/// The name of a table, which leads nowhere else.
pub(crate) fn safe<'a>(program: &Path, name: &'a str) -> Result<&'a str, Problem> {
    let is_name = !name.is_empty() && !name.starts_with('.') && !name.contains(['/', '\\']);
    let wrong = || {
        let message = format!("'{name}' is no name of a table");
        Problem::whole(&program.display().to_string(), message)
    };
    is_name.then_some(name).ok_or_else(wrong)
}

pub(crate) fn read_notes(path: &Path) -> Result<Notes, Problem> {
    let name = path.display().to_string();
    let bytes = load::bytes(path, MOST_BYTES).map_err(|x| Problem::whole(&name, x))?;
    Notes::read(&name, &bytes)
}

impl Directory {
    /// All tables with their notes, or all that is wrong with them.
    pub fn read(path: &Path) -> Result<Directory, Vec<Problem>> {
        let program = path.join(PROGRAM);
        let notes = read_notes(&program).map_err(|x| vec![x])?;
        let mut problems = Vec::new();
        let mut regions = Vec::new();
        for note in notes.of(Key::Table) {
            let held =
                safe(&program, &note.subject).and_then(|name| held(path, name, &note.reason));
            match held {
                Ok(held) => regions.push(held),
                Err(problem) => problems.push(problem),
            }
        }
        if problems.is_empty() {
            Ok(Directory { regions, notes })
        } else {
            Err(problems)
        }
    }

    /// The notes of all regions and of the program.
    pub fn all_notes(&self) -> impl Iterator<Item = &crate::notes::Note> {
        let of_regions = self.regions.iter().flat_map(|x| x.notes.iter());
        of_regions.chain(self.notes.iter())
    }
}

impl Held {
    /// What a recorded run has for the nodes of its chart.
    pub(crate) fn map(&self) -> Result<Map, Problem> {
        let path = self.table.with_extension("map");
        let name = path.display().to_string();
        let bytes = load::bytes(&path, MOST_BYTES).map_err(|x| Problem::whole(&name, x))?;
        let map = Map::read(&name, &bytes)?;
        let nodes = self.loaded.as_ref().map_or(0, |x| x.counts.nodes);
        match map.nodes.len() == nodes {
            true => Ok(map),
            false => {
                let message = "is not of the table beside it; 'bohrali regions' writes both anew";
                Err(Problem::whole(&name, message))
            }
        }
    }
}

fn held(path: &Path, name: &str, reason: &str) -> Result<Held, Problem> {
    let table = path.join(format!("{name}.csv"));
    let shown = table.display().to_string();
    let loaded = if reason.is_empty() {
        let bytes = load::bytes(&table, MOST_BYTES).map_err(|x| Problem::whole(&shown, x))?;
        let loaded = load::region(&bytes).map_err(|x| Problem::whole(&shown, x.to_string()))?;
        Some(loaded)
    } else {
        None
    };
    Ok(Held {
        name: name.into(),
        table,
        loaded,
        notes: read_notes(&path.join(format!("{name}.txt")))?,
    })
}
