//! Flow files, read strictly: a row that is not known, a number that names nothing and a file that was cut
//! off are errors.

use crate::body::Draft;
use crate::flow::{Alias, Function, SourceLine, Unit, Word, Words};
use crate::hash::{hash, hash_on, NO_BYTES};
use crate::problem::Problem;

/// The most bytes that are read of a flow.
pub(crate) const MOST_BYTES: u64 = 1 << 28;

const HEADER: &str = "bohrali-flow";
const VERSION: &str = "1";

/// A mark with one row more.
fn marked(mark: u64, row: &str) -> u64 {
    hash_on(hash_on(mark, row.as_bytes()), b"\n")
}

/// Why a row is not taken.
pub(crate) type Outcome<T> = Result<T, String>;

/// The unit of a flow file's bytes.
pub(crate) fn read(path: &str, bytes: &[u8], words: &mut Words) -> Result<Unit, Problem> {
    if !bytes.is_ascii() {
        return Err(Problem::whole(
            path,
            "this is no flow: it holds bytes that are no ASCII",
        ));
    }
    let text = std::str::from_utf8(bytes).unwrap_or("");
    let mut reader = Reader::new(words);
    for (row, line) in text.lines().enumerate() {
        let before = line.as_ptr() as usize - text.as_ptr() as usize;
        let read = reader.row(row, line, &bytes[..before]);
        read.map_err(|message| Problem {
            path: path.into(),
            row: Some(row + 1),
            message,
        })?;
    }
    if !reader.is_complete || !text.ends_with('\n') {
        return Err(Problem::whole(path, cut_off(text)));
    }
    Ok(reader.unit)
}

fn cut_off(text: &str) -> &'static str {
    if text.is_empty() {
        "the flow is empty"
    } else {
        "the flow is cut off: its last row is not 'complete'; compile the unit again"
    }
}

struct Reader<'a> {
    words: &'a mut Words,
    unit: Unit,
    files: Vec<Word>,
    /// The mark of the unit's row.
    mark: u64,
    /// The function whose rows are being read.
    open: Option<(Function, Draft)>,
    is_complete: bool,
}

/// The cells of a row behind its first, which are taken one by one.
pub(crate) struct Cells<'a>(std::str::Split<'a, char>);

impl<'a> Cells<'a> {
    /// The first cell of a row, and those behind it.
    pub fn of(line: &'a str) -> (&'a str, Cells<'a>) {
        let mut split = line.split(' ');
        (split.next().unwrap_or(""), Cells(split))
    }

    pub fn next(&mut self, what: &str) -> Outcome<&'a str> {
        let cell = self.0.next().filter(|x| !x.is_empty());
        cell.ok_or_else(|| format!("{what} expected, and the row ends"))
    }

    pub fn more(&mut self) -> Option<&'a str> {
        self.0.next()
    }

    pub fn end(mut self) -> Outcome<()> {
        match self.0.next() {
            Some(cell) => Err(format!("'{cell}' found, and the row should end")),
            None => Ok(()),
        }
    }

    pub fn number(&mut self, what: &str) -> Outcome<usize> {
        number(self.next(what)?)
    }

    /// The number that the next row of its kind must have.
    pub fn in_turn(&mut self, expected: usize) -> Outcome<()> {
        match self.number("a number")? {
            found if found == expected => Ok(()),
            found => Err(format!(
                "number {found} found, {expected} expected: they follow one another from 0"
            )),
        }
    }

    /// A number below so many, or -1 for none.
    pub fn optional(&mut self, what: &str, below: usize) -> Outcome<Option<usize>> {
        match self.next(what)? {
            "-1" => Ok(None),
            text => below_limit(what, number(text)?, below).map(Some),
        }
    }
}

pub(crate) fn number<T: std::str::FromStr>(text: &str) -> Outcome<T> {
    let digits = text.strip_prefix('-').unwrap_or(text);
    let plain = !digits.is_empty() && digits.bytes().all(|x| x.is_ascii_digit());
    let parsed = plain.then(|| text.parse().ok()).flatten();
    parsed.ok_or_else(|| format!("'{text}' found, a number expected"))
}

pub(crate) fn below_limit(what: &str, found: usize, below: usize) -> Outcome<usize> {
    if found < below {
        Ok(found)
    } else {
        Err(format!("{what} {found} is named, and there are {below}"))
    }
}

/// A word that the flow's own escapes keep in one piece.
pub(crate) fn safe_word(text: &str) -> Outcome<&str> {
    let is_safe = |x: u8| x.is_ascii_alphanumeric() || b"_-+./@~#=*%".contains(&x);
    if !text.is_empty() && text.bytes().all(is_safe) {
        Ok(text)
    } else {
        Err(format!("'{text}' found, a word without blanks expected"))
    }
}

/// A source line as FILE:LINE, with the file's number.
pub(crate) fn source_line(files: &[Word], text: &str) -> Outcome<SourceLine> {
    let wrong = || format!("'{text}' found, FILE:LINE expected");
    let (file, line) = text.split_once(':').ok_or_else(wrong)?;
    let file = below_limit("file", number(file)?, files.len())?;
    Ok(SourceLine {
        file: files[file],
        line: number(line)?,
    })
}

impl<'a> Reader<'a> {
    fn new(words: &'a mut Words) -> Reader<'a> {
        Reader {
            words,
            unit: Unit::default(),
            files: Vec::new(),
            mark: NO_BYTES,
            open: None,
            is_complete: false,
        }
    }

    fn row(&mut self, row: usize, line: &str, before: &[u8]) -> Outcome<()> {
        let (first, mut cells) = Cells::of(line);
        if self.is_complete {
            return Err("a row stands behind 'complete'".into());
        }
        match (row, first) {
            (0, HEADER) => match cells.next("a version")? {
                VERSION => cells.end(),
                other => Err(format!(
                    "this is a flow of version {other}, and version {VERSION} is read: compile with the plugin of this release"
                )),
            },
            (0, _) => Err(format!("this is no flow: '{HEADER} {VERSION}' is expected")),
            (1, "unit") => {
                self.unit.path = safe_word(cells.next("a path")?)?.into();
                self.mark = marked(self.mark, line);
                cells.end()
            }
            (1, _) => Err("'unit' expected".into()),
            (_, "file") => self.file(cells),
            _ if self.open.is_some() => self.inside(first, cells, line),
            (_, "function") => self.function(cells, line),
            (_, "alias") => self.alias(cells),
            (_, "hash") => self.hash(cells, before),
            (_, "complete") => self.complete(cells),
            _ => Err(format!("'{first}' is no row of a flow")),
        }
    }

    fn file(&mut self, mut cells: Cells) -> Outcome<()> {
        cells.in_turn(self.files.len())?;
        let path = safe_word(cells.next("a path")?)?;
        self.files.push(self.words.number(path));
        cells.end()
    }

    fn function(&mut self, mut cells: Cells, line: &str) -> Outcome<()> {
        cells.in_turn(self.unit.functions.len())?;
        let symbol = safe_word(cells.next("a symbol")?)?;
        source_line(&self.files, cells.next("a place")?)?;
        let is_public = public(cells)?;
        let function = Function {
            symbol: self.words.number(symbol),
            is_public,
            mark: marked(self.mark, line),
            body: Err(String::new()),
        };
        self.open = Some((function, Draft::default()));
        Ok(())
    }

    /// A row of a function.
    fn inside(&mut self, first: &str, cells: Cells, line: &str) -> Outcome<()> {
        let Some((function, draft)) = &mut self.open else {
            return Ok(());
        };
        function.mark = marked(function.mark, line);
        match first {
            "trouble" => draft.give_up(line.strip_prefix("trouble ").unwrap_or("")),
            "dir" => draft.directive(cells, &self.files, self.words),
            "node" => draft.node(cells, &self.files, self.words),
            "edge" => draft.edge(cells),
            "end" => {
                cells.end()?;
                function.body = std::mem::take(draft).finish()?;
                self.unit.functions.extend(self.open.take().map(|x| x.0));
                Ok(())
            }
            _ => Err(format!(
                "'{first}' is no row of a function, which 'end' ends"
            )),
        }
    }

    fn alias(&mut self, mut cells: Cells) -> Outcome<()> {
        let symbol = safe_word(cells.next("a symbol")?)?;
        let target = safe_word(cells.next("a symbol")?)?;
        let is_public = public(cells)?;
        self.unit.aliases.push(Alias {
            symbol: self.words.number(symbol),
            target: self.words.number(target),
            is_public,
        });
        Ok(())
    }

    /// The hash of all rows before it.
    fn hash(&mut self, mut cells: Cells, before: &[u8]) -> Outcome<()> {
        let found = cells.next("a hash")?;
        if self.unit.hash.is_some() {
            return Err("a second hash".into());
        }
        if found != hash(before) {
            return Err("the flow was changed after it was written; compile the unit again".into());
        }
        self.unit.hash = Some(found.into());
        cells.end()
    }

    fn complete(&mut self, mut cells: Cells) -> Outcome<()> {
        let (found, functions) = (cells.number("a count")?, self.unit.functions.len());
        if found != functions {
            return Err(format!(
                "{found} functions are said to be there, and there are {functions}"
            ));
        }
        self.is_complete = true;
        cells.end()
    }
}

/// Whether the row ends with 'public'; otherwise it ends.
fn public(mut cells: Cells) -> Outcome<bool> {
    match cells.more() {
        Some("public") => cells.end().map(|()| true),
        Some(other) => Err(format!("'{other}' found, 'public' or nothing expected")),
        None => Ok(false),
    }
}
