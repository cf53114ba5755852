//! The first row of a table. A heading that is misspelt must not be skipped in silence: an edge or a
//! construct would be lost with its column.

use crate::csv::CsvRow;
use crate::problem::{column, quoted, Problems, Wrong, HEADINGS};

/// What the first row says of the columns.
pub(crate) struct Heading {
    /// How many columns have a heading.
    pub columns: usize,
    pub has_tag: bool,
}

impl Heading {
    pub fn read(row: Option<&CsvRow>) -> Result<Heading, Wrong> {
        let mut problems = Problems::default();
        let listed = HEADINGS.join(",");
        let Some(row) = row else {
            problems.row(
                1,
                format!("the file is empty; a heading '{listed}' is expected"),
            );
            return problems.stop().map(|()| Heading {
                columns: 0,
                has_tag: false,
            });
        };
        let headings: Vec<String> = row.cells().map(str::to_lowercase).collect();
        let used = headings.iter().rposition(|x| !x.is_empty());
        let headings = &headings[..used.map_or(0, |x| x + 1)];
        expect_own(row.line, headings, &mut problems);
        let has_tag = headings.get(column::TAG).is_some_and(|x| x == "tag");
        let first_note = HEADINGS.len() + usize::from(has_tag);
        for (place, heading) in headings.iter().enumerate().skip(first_note) {
            expect_note(row.line, place, heading, &mut problems);
        }
        problems.stop()?;
        Ok(Heading {
            columns: headings.len(),
            has_tag,
        })
    }
}

/// The first that is not as expected is told: those behind it are likely to be wrong by it.
fn expect_own(line: usize, headings: &[String], problems: &mut Problems) {
    let found = |place: usize| headings.get(place).map_or("", String::as_str);
    let differs = |x: &(usize, &&str)| found(x.0) != *x.1;
    if let Some((place, expected)) = HEADINGS.iter().enumerate().find(differs) {
        let message = format!(
            "heading {} found, '{expected}' expected; the headings are {}, in this order",
            quoted(found(place)),
            HEADINGS.join(", ")
        );
        problems.heading(line, place, message);
    }
}

fn expect_note(line: usize, place: usize, heading: &str, problems: &mut Problems) {
    let message = match heading {
        "tag" => "heading 'tag' stands in column G alone, before columns of your own".into(),
        _ if heading.starts_with("note") => return,
        _ => format!(
            "heading {} is none of the table's; a column of your own has a heading that begins with 'note'",
            quoted(heading)
        ),
    };
    problems.heading(line, place, message);
}
