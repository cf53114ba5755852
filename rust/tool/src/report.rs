//! What a command gives: results for standard output, messages for standard error, a status.

use std::env;
use std::io::{self, IsTerminal, Write};
use std::process::ExitCode;

/// The status where all is well.
pub const GOOD: u8 = 0;
/// The status where a claim fails, a never was lost, or what `--strict` asks for is not so.
pub const FOUND: u8 = 1;
/// The status where something is refused or cannot be read.
pub const REFUSED: u8 = 2;

/// What a command has to say.
pub struct Report {
    pub out: String,
    /// For standard error: what a person should know beside the result.
    pub notes: Vec<String>,
    pub status: u8,
}

impl Report {
    pub fn of(out: impl Into<String>) -> Report {
        Report {
            out: out.into(),
            notes: Vec::new(),
            status: GOOD,
        }
    }

    pub fn with_status(self, status: u8) -> Report {
        Report { status, ..self }
    }

    pub fn with_notes(self, notes: Vec<String>) -> Report {
        Report { notes, ..self }
    }

    pub fn print(&self) -> ExitCode {
        let written = write(io::stdout().lock(), &self.out);
        for note in &self.notes {
            // A message that cannot be written is a message to nobody.
            write(io::stderr().lock(), &format!("{note}\n")).ok();
        }
        match written {
            Ok(()) => ExitCode::from(self.status),
            Err(error) => {
                let told = format!("bohrali: standard output: {error}\n");
                write(io::stderr().lock(), &told).ok();
                ExitCode::from(REFUSED)
            }
        }
    }
}

/// Writes a text; a reader that has gone has what it wanted.
fn write(mut stream: impl Write, text: &str) -> io::Result<()> {
    let written = stream
        .write_all(text.as_bytes())
        .and_then(|()| stream.flush());
    match written {
        Err(error) if error.kind() == io::ErrorKind::BrokenPipe => Ok(()),
        other => other,
    }
}

/// Why a command has no result: lines for standard error.
#[derive(Debug)]
pub struct Failure {
    lines: Vec<String>,
    is_usage: bool,
}

impl Failure {
    /// What is wrong with a file, or with what is asked of it; each line names the file.
    pub fn about(file: &str, message: impl ToString) -> Failure {
        let message = message.to_string();
        Failure {
            lines: message.lines().map(|x| format!("{file}: {x}")).collect(),
            is_usage: false,
        }
    }

    /// What is wrong with the words of the command line.
    pub fn words(message: impl Into<String>) -> Failure {
        Failure {
            lines: vec![format!("bohrali: {}", message.into())],
            is_usage: false,
        }
    }

    /// How the command is called.
    pub fn usage(text: impl Into<String>) -> Failure {
        Failure {
            lines: vec![text.into().trim_end().into()],
            is_usage: true,
        }
    }

    /// The same with the messages of another.
    pub fn and(mut self, other: Failure) -> Failure {
        self.lines.extend(other.lines);
        self
    }

    pub fn print(&self, terminal: &Terminal) -> ExitCode {
        let mut stream = io::stderr().lock();
        for line in &self.lines {
            let line = match self.is_usage {
                true => line.clone(),
                false => terminal.message(line),
            };
            write(&mut stream, &format!("{line}\n")).ok();
        }
        ExitCode::from(REFUSED)
    }
}

/// Whether the two streams may be coloured.
pub struct Terminal {
    out: bool,
    err: bool,
}

/// What colour says: how good it is for who wants to drop a lock.
#[derive(Clone, Copy, PartialEq, Eq)]
pub enum Colour {
    Good,
    Warm,
    Quiet,
    Strong,
}

impl Colour {
    fn code(self) -> &'static str {
        match self {
            Colour::Good => "32",
            Colour::Warm => "33;1",
            Colour::Quiet => "2",
            Colour::Strong => "1",
        }
    }
}

impl Terminal {
    /// Colour is for terminals, and not for who has set `NO_COLOR`.
    pub fn find() -> Terminal {
        let wanted = env::var_os("NO_COLOR").is_none_or(|x| x.is_empty())
            && env::var_os("TERM").is_none_or(|x| x != "dumb");
        Terminal {
            out: wanted && io::stdout().is_terminal(),
            err: wanted && io::stderr().is_terminal(),
        }
    }

    /// No colour at all.
    pub fn plain() -> Terminal {
        Terminal {
            out: false,
            err: false,
        }
    }

    /// A text for standard output.
    pub fn paint(&self, colour: Colour, text: &str) -> String {
        painted(self.out, colour, text)
    }

    /// A message, with the file or the command that it begins with made strong.
    fn message(&self, line: &str) -> String {
        match line.split_once(": ") {
            Some((about, rest)) => format!("{}: {rest}", painted(self.err, Colour::Strong, about)),
            None => line.into(),
        }
    }
}

fn painted(is_coloured: bool, colour: Colour, text: &str) -> String {
    match is_coloured && !text.is_empty() {
        true => format!("\u{1b}[{}m{text}\u{1b}[0m", colour.code()),
        false => text.into(),
    }
}
