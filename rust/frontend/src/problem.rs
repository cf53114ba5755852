//! What is wrong with a file that was handed over.

use std::fmt;

#[derive(Clone, Debug, PartialEq, Eq)]
pub struct Problem {
    pub path: String,
    /// From 1; none where the file as a whole is meant.
    pub row: Option<usize>,
    pub message: String,
}

impl Problem {
    pub fn whole(path: &str, message: impl Into<String>) -> Problem {
        Problem {
            path: path.into(),
            row: None,
            message: message.into(),
        }
    }
}

impl fmt::Display for Problem {
    fn fmt(&self, out: &mut fmt::Formatter) -> fmt::Result {
        match self.row {
            Some(row) => write!(out, "{}, row {row}: {}", self.path, self.message),
            None => write!(out, "{}: {}", self.path, self.message),
        }
    }
}
