//! The lines of one statement. gfortran gives a statement of several lines any of their numbers, and code
//! inside a workshare the number of a statement before it.

use region::Lines;

const FIXED: [&str; 3] = [".f", ".for", ".ftn"];
const FREE: [&str; 4] = [".f90", ".f95", ".f03", ".f08"];

fn is_any(file: &str, endings: &[&str]) -> bool {
    let file = file.to_ascii_lowercase();
    endings.iter().any(|x| file.ends_with(x))
}

/// Whether the lines of a statement are to be told from its source.
pub(crate) fn is_fortran(file: &str) -> bool {
    is_any(file, &FIXED) || is_any(file, &FREE)
}

/// The lines with all of the statements that they are of, in a Fortran source; or why they have no answer.
pub(crate) fn statement(lines: &Lines, source: &str) -> Result<Lines, &'static str> {
    let is_fixed = is_any(&lines.file, &FIXED);
    let rows: Vec<&str> = source.lines().collect();
    // Whether the line behind this one, counted from 1, continues it.
    let goes_on = |line: u32| {
        let row = |line: u32| rows.get(line.checked_sub(1)? as usize).copied();
        let continued = |row: &str| {
            let (label, mark) = (row.get(..5), row.get(5..6));
            label.is_some_and(|x| x.trim().is_empty()) && !matches!(mark, None | Some(" " | "0"))
        };
        match is_fixed {
            true => line > 0 && row(line + 1).is_some_and(continued),
            false => row(line)
                .is_some_and(|x| x.split('!').next().unwrap_or("").trim_end().ends_with('&')),
        }
    };
    let (mut first, mut last) = (lines.first, lines.last);
    while goes_on(first.saturating_sub(1)) {
        first -= 1;
    }
    while goes_on(last) {
        last += 1;
    }
    if touches_workshare(&rows, last) {
        return Err("inside a workshare, whose line numbers gfortran does not give");
    }
    Ok(Lines {
        first,
        last,
        ..lines.clone()
    })
}

/// Whether a workshare is open at a line.
fn touches_workshare(rows: &[&str], line: u32) -> bool {
    let mut is_open = false;
    for row in rows.iter().take(line as usize) {
        let row: String = row.split_whitespace().collect();
        let row = row.to_ascii_lowercase();
        let Some(directive) = row.get(1..).and_then(|x| x.strip_prefix("$omp")) else {
            continue;
        };
        match directive {
            x if x.starts_with("workshare") || x.starts_with("parallelworkshare") => is_open = true,
            x if x.starts_with("endworkshare") || x.starts_with("endparallelworkshare") => {
                is_open = false;
            }
            _ => {}
        }
    }
    is_open
}

#[cfg(test)]
mod tests {
    use super::*;

    fn told(file: &str, line: u32, source: &str) -> Result<(u32, u32), &'static str> {
        let lines = Lines {
            file: file.into(),
            first: line,
            last: line,
        };
        statement(&lines, source).map(|x| (x.first, x.last))
    }

    #[test]
    fn lines_that_continue_one_another_are_one_statement() {
        let free = "x = 1\ny = a + & ! more\n    b + &\n    c\nz = 2\n";
        assert_eq!(told("a.f90", 1, free), Ok((1, 1)));
        for line in 2..=4 {
            assert_eq!(told("a.F90", line, free), Ok((2, 4)));
        }
        let fixed = "      x = 1\n      y = a +\n     &    b +\n     1    c\n 0010 z = 2\n";
        assert_eq!(told("a.f", 1, fixed), Ok((1, 1)));
        assert_eq!(told("a.f", 3, fixed), Ok((2, 4)));
        assert_eq!(told("a.f", 5, fixed), Ok((5, 5)));
        assert_eq!(told("a.f", 99, fixed), Ok((99, 99)));
    }

    #[test]
    fn a_workshare_has_no_answer() {
        let source = "x = 1\n!$omp workshare\ny = 1\n!$OMP END WORKSHARE\nz = 1\n";
        assert!(told("a.f90", 3, source).is_err());
        assert_eq!(told("a.f90", 5, source), Ok((5, 5)));
    }
}
