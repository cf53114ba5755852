//! A region out of a file, of whatever form: told by what is in it.

use crate::chart::Chart;
use crate::problem::Wrong;
use crate::table::Table;
use bohrali::limits::{MOST_CHART_BYTES, MOST_NODES};
use bohrali::Counts;
use std::fs::{self, File};
use std::io::{self, Read};
use std::path::Path;

/// The most bytes that are read of a region.
pub const MOST_BYTES: u64 = 4 << 20;

/// What a file holds.
#[derive(Clone, Copy, Debug, PartialEq, Eq)]
pub enum Form {
    Table,
    Chart,
    Listing,
}

/// A region that is admitted: the bytes that are handed to the library, and the same for people.
#[derive(Clone, Debug)]
pub struct Loaded {
    pub form: Form,
    pub bytes: Vec<u8>,
    pub table: Table,
    pub counts: Counts,
}

/// The form of these bytes. A chart has bytes of 0 in its trailer, and a table a separator in its heading.
pub fn form(bytes: &[u8]) -> Form {
    let is_separated = || bytes.iter().any(|x| matches!(x, b',' | b';' | b'\t'));
    if heading(bytes) {
        Form::Table
    } else if bytes.contains(&0) && !bytes.starts_with(&[0xFF, 0xFE]) {
        Form::Chart
    } else if bytes.is_empty() || is_separated() || std::str::from_utf8(bytes).is_err() {
        Form::Table
    } else {
        Form::Listing
    }
}

/// Whether the first heading stands there.
fn heading(bytes: &[u8]) -> bool {
    let text = bytes.strip_prefix("\u{feff}".as_bytes()).unwrap_or(bytes);
    let text = text.strip_prefix(b"\"").unwrap_or(text);
    text.get(..4)
        .is_some_and(|x| x.eq_ignore_ascii_case(b"node"))
}

/// The region that these bytes are.
pub fn region(bytes: &[u8]) -> Result<Loaded, Wrong> {
    let form = form(bytes);
    let (bytes, table) = match form {
        Form::Table => {
            let table = Table::read(bytes)?;
            (table.chart.encode(), table)
        }
        Form::Chart => charted(bytes.to_vec())?,
        Form::Listing => listed(bytes)?,
    };
    let counts = bohrali::admit(&bytes).map_err(|x| Wrong::whole(Some(x), x.to_string()))?;
    Ok(Loaded {
        form,
        bytes,
        table,
        counts,
    })
}

fn charted(bytes: Vec<u8>) -> Result<(Vec<u8>, Table), Wrong> {
    bohrali::admit(&bytes).map_err(|x| Wrong::whole(Some(x), x.to_string()))?;
    match Chart::decode(&bytes) {
        Some(chart) => Ok((bytes, Table::of(chart))),
        None => Err(Wrong::whole(
            None,
            "the chart is admitted, and could not be read: this is a fault of the reader, please report it",
        )),
    }
}

/// A listing has no blanks or line ends; those at its end are an editor's.
fn listed(bytes: &[u8]) -> Result<(Vec<u8>, Table), Wrong> {
    let mut chart = vec![0; MOST_CHART_BYTES];
    let length = bohrali::listing(bytes.trim_ascii_end(), &mut chart)
        .map_err(|x| Wrong::whole(Some(x), x.to_string()))?;
    chart.truncate(length);
    charted(chart)
}

/// The bytes of a file, at most so many. What is no file, or has more, is told before it is read.
pub fn bytes(path: &Path, most: u64) -> Result<Vec<u8>, String> {
    let found = fs::metadata(path).map_err(|x| unreadable(&x))?;
    if found.is_dir() {
        return Err("this is a directory, a file is expected".into());
    }
    if !found.is_file() {
        return Err("this is no ordinary file, which is expected".into());
    }
    let file = File::open(path).map_err(|x| unreadable(&x))?;
    if found.len() > most {
        return Err(too_long(most));
    }
    bounded(file, most)
}

/// What a reader gives, at most so many bytes.
pub fn bounded(reader: impl Read, most: u64) -> Result<Vec<u8>, String> {
    let mut bytes = Vec::new();
    let mut reader = reader.take(most + 1);
    reader.read_to_end(&mut bytes).map_err(|x| unreadable(&x))?;
    if bytes.len() as u64 > most {
        return Err(too_long(most));
    }
    Ok(bytes)
}

fn unreadable(error: &io::Error) -> String {
    match error.kind() {
        io::ErrorKind::NotFound => "there is no such file".into(),
        io::ErrorKind::PermissionDenied => "the file may not be read".into(),
        _ => format!("the file cannot be read: {error}"),
    }
}

fn too_long(most: u64) -> String {
    format!("the file is longer than the {most} bytes that are read; a region has at most {MOST_NODES} nodes")
}
