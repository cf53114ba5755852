//! `bohrali page`: regions as one page for a browser.

use super::replay::Told;
use super::{convert, program_locks, races, Command};
use crate::arguments::{Arguments, Opt, OUTPUT, REGION, SIZE};
use crate::changes::{self, Change, BY};
use crate::page::{self, Layers, Program};
use crate::report::{Failure, Report, Terminal};
use crate::subject::{Subject, Team};
use crate::tables;
use crate::words::count;
use std::path::Path;

const SOURCE: Opt = Opt {
    name: "--source",
    value: Some("DIR"),
    help: "show the source lines that the column 'where' names, of files below DIR",
};

const COMPARE: Opt = Opt {
    name: "--compare",
    value: None,
    help: "the two files are OLD and NEW: NEW, with the nevers that were lost or gained",
};

const TRACE: Opt = Opt {
    name: "--trace",
    value: Some("TRACE"),
    help: "a recorded run of the first file's region, laid over its sheet and to be stepped",
};

const ACCESSES: Opt = Opt {
    name: "--accesses",
    value: Some("ACCESSES"),
    help: "accesses to variables of the first file's region, as 'races' takes them: marks those that race",
};

pub const COMMAND: Command = Command {
    name: "page",
    operands: "FILE.. | DIR -o OUT",
    count: (1, usize::MAX),
    summary: "a page for a browser: rows, sheet, reasons and runs",
    details: &[
        "The page is one file that needs no network: the rows of each region, on the same rows its sheet, and behind
every cell the answer in words with its evidence; behind a 0 also a run that shows it, to be stepped by arrow
keys. The same files give the same bytes.",
        "No answer is made in the page: it shows what the library answers, and each run in it was certified by a
proved call. Criticals of one name in several files share their lock, as for 'locks'.",
        "Of a DIR, which 'bohrali regions' writes, all regions are shown, with their notes, and each critical as 'locks
DIR' tells it of the whole program. With several regions the page opens with a list of them.",
        "With --compare there are two files, and cells of the second whose never was lost or gained since the first
are marked and listed, as 'diff' tells them. Locks are then told of each file by itself.",
        "TRACE is what 'replay' takes, ACCESSES what 'races' takes; --region and --size are those of the team; the first file is the one that
the page opens with, with --compare NEW.",
    ],
    options: &[OUTPUT, SOURCE, COMPARE, BY, TRACE, ACCESSES, REGION, SIZE],
    run,
};

fn run(arguments: &Arguments, _: &Terminal) -> Result<Report, Failure> {
    let Some(out) = arguments.value(&OUTPUT) else {
        let message = "page: -o OUT.html is missing, the file that the page goes to";
        return Err(Failure::words(message));
    };
    let folder = arguments.value(&SOURCE).map(Path::new);
    let (page, files, notes) = match program(arguments)? {
        Some((subjects, program)) => {
            let page = page::made(&subjects, folder, Layers::none(), Some(&program))?;
            (page, count(subjects.len(), "region"), Vec::new())
        }
        None => {
            let mut subjects = Subject::read_all(&arguments.operands)?;
            let (changes, notes) = changed(arguments, &mut subjects)?;
            let layers = layers(arguments, &subjects[0], changes)?;
            let page = page::made(&subjects, folder, layers, None)?;
            (page, count(subjects.len(), "file"), notes)
        }
    };
    convert::written(out, page.as_bytes())?;
    let name = out.to_string_lossy();
    let told = format!("{name}: {files}, {} bytes\n", page.len());
    Ok(Report::of(told).with_notes(notes))
}

/// The tables of a directory, with what is known of the whole program.
fn program(arguments: &Arguments) -> Result<Option<(Vec<Subject>, Program)>, Failure> {
    let Some(directory) = tables::named(arguments)? else {
        return Ok(None);
    };
    let about = |message: &str| {
        let name = arguments.operands[0].to_string_lossy();
        Err(Failure::about(&name, message))
    };
    if arguments.operands.len() > 1 {
        return about("a directory of tables stands for a whole program: name it alone");
    }
    if [&COMPARE, &BY, &TRACE, &ACCESSES]
        .iter()
        .any(|x| arguments.has(x))
    {
        return about("--compare, --by, --trace and --accesses are for files: name its tables");
    }
    let criticals = program_locks::criticals(&directory)?;
    let subjects = directory.regions.iter().filter_map(tables::subject);
    let subjects = subjects.collect();
    let program = Program {
        directory,
        criticals,
    };
    Ok(Some((subjects, program)))
}

/// What changed, with what is to be said of it. The new file is then the first.
fn changed(
    arguments: &Arguments,
    subjects: &mut [Subject],
) -> Result<(Option<Vec<Change>>, Vec<String>), Failure> {
    match (arguments.has(&COMPARE), subjects) {
        (false, _) => Ok((None, Vec::new())),
        (true, [old, new]) => {
            let matching = changes::matching(arguments, old, new)?;
            let notes = matching.notes(old, new);
            let changes = changes::all(old, new, &matching, None)?;
            std::mem::swap(old, new);
            Ok((Some(changes), notes))
        }
        (true, _) => {
            let message = "page: --compare wants two files, OLD and NEW";
            Err(Failure::words(message))
        }
    }
}

/// What is laid over the first file.
fn layers<'a>(
    arguments: &Arguments,
    first: &'a Subject,
    changes: Option<Vec<Change>>,
) -> Result<Layers<'a>, Failure> {
    let team = Team::named(arguments)?;
    let recorded = arguments.value(&TRACE);
    let recorded = recorded.map(|x| Told::of(first, team, x));
    let races = arguments.value(&ACCESSES);
    let races = races.map(|x| races::layer(first, team.region, x));
    Ok(Layers {
        changes,
        recorded: recorded.transpose()?,
        races: races.transpose()?,
    })
}
