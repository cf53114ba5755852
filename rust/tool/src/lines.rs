//! Lists as text, a line for each entry: claims, accesses, traces. `#` begins a comment.

use crate::report::Failure;
use std::str;

/// A line that says something.
pub struct Line<'a> {
    pub number: usize,
    /// What it says, without its comment.
    pub text: &'a str,
}

/// The lines of a file that are no comments.
pub fn of<'a>(file: &str, bytes: &'a [u8]) -> Result<Vec<Line<'a>>, Failure> {
    let text = str::from_utf8(bytes).map_err(|x| {
        let before = &bytes[..x.valid_up_to()];
        let line = before.iter().filter(|&&x| x == b'\n').count() + 1;
        Failure::about(file, format!("line {line}: a letter here is not UTF-8"))
    })?;
    let text = text.strip_prefix('\u{feff}').unwrap_or(text);
    let numbered = (1..).zip(text.lines());
    let said = numbered.map(|(number, line)| Line {
        number,
        text: line.split('#').next().unwrap_or("").trim(),
    });
    Ok(said.filter(|x| !x.text.is_empty()).collect())
}

/// What each line becomes, or what is wrong with some of them, at most 20 told.
pub fn each<'a, T>(
    file: &str,
    lines: &[Line<'a>],
    mut read: impl FnMut(&Line<'a>) -> Result<T, String>,
) -> Result<Vec<T>, Failure> {
    const MOST: usize = 20;
    let mut found = Vec::with_capacity(lines.len());
    let mut wrong = Vec::new();
    for line in lines {
        match read(line) {
            Ok(item) => found.push(item),
            Err(message) => wrong.push(format!("line {}: {message}", line.number)),
        }
    }
    let more = wrong.len().saturating_sub(MOST);
    wrong.truncate(MOST);
    if more > 0 {
        wrong.push(format!("and {more} more"));
    }
    match wrong.is_empty() {
        true => Ok(found),
        false => Err(Failure::about(file, wrong.join("\n"))),
    }
}
