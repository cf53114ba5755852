//! The words of the command line.

use crate::commands::Command;
use crate::nearest::nearest;
use crate::report::Failure;
use std::collections::BTreeMap;
use std::ffi::{OsStr, OsString};

/// An option of a command.
pub struct Opt {
    pub name: &'static str,
    /// What its value is called, where it has one.
    pub value: Option<&'static str>,
    pub help: &'static str,
}

pub const REGION: Opt = Opt {
    name: "--region",
    value: Some("N"),
    help: "the region of the parallel with construct number N; 255, the outermost, if not given",
};
pub const SIZE: Opt = Opt {
    name: "--size",
    value: Some("N"),
    help: "for teams of just N threads, 1 to 1024; for teams of any size if not given",
};
pub const JSON: Opt = Opt {
    name: "--json",
    value: None,
    help: "the result as one JSON document",
};
pub const WHY: Opt = Opt {
    name: "--why",
    value: None,
    help: "with a run that shows it, as 'bohrali why' does",
};
/// What the value's name of an option ends with that may be given several times.
const REPEATED: &str = "..";

pub const OUTPUT: Opt = Opt {
    name: "-o",
    value: Some("OUT"),
    help: "write to the file OUT",
};

/// What was typed behind the name of a command.
#[derive(Debug, Default)]
pub struct Arguments {
    pub operands: Vec<OsString>,
    options: BTreeMap<&'static str, OsString>,
}

impl Arguments {
    pub fn has(&self, option: &Opt) -> bool {
        self.options.contains_key(option.name)
    }

    pub fn value(&self, option: &Opt) -> Option<&OsStr> {
        self.options.get(option.name).map(OsString::as_os_str)
    }

    /// The value of an option that is a number.
    pub fn number(&self, option: &Opt) -> Result<Option<usize>, Failure> {
        let Some(text) = self.value(option) else {
            return Ok(None);
        };
        let number = text.to_str().and_then(|x| x.parse().ok());
        number.map(Some).ok_or_else(|| {
            let found = text.to_string_lossy();
            Failure::words(format!("{} wants a number, '{found}' found", option.name))
        })
    }
}

impl Arguments {
    /// An option is given once, or each value of it, separated by commas.
    fn take(&mut self, command: &Command, option: &Opt, value: OsString) -> Result<(), Failure> {
        let Some(before) = self.options.get_mut(option.name) else {
            self.options.insert(option.name, value);
            return Ok(());
        };
        if option.value.is_none_or(|x| !x.ends_with(REPEATED)) {
            return Err(wrong(command, format!("{} is given twice", option.name)));
        }
        before.push(",");
        before.push(value);
        Ok(())
    }
}

/// What was typed, or none where help is asked for.
pub fn parse(command: &Command, words: &[OsString]) -> Result<Option<Arguments>, Failure> {
    let mut arguments = Arguments::default();
    let mut words = words.iter();
    let mut only_operands = false;
    while let Some(word) = words.next() {
        let text = word.to_string_lossy();
        match text.as_ref() {
            "--" if !only_operands => only_operands = true,
            "--help" | "-h" if !only_operands => return Ok(None),
            typed if !only_operands && typed.len() > 1 && typed.starts_with('-') => {
                let (option, value) = option(command, typed)?;
                let value = match (option.value, value) {
                    (None, None) => OsString::new(),
                    (None, Some(_)) => {
                        return Err(wrong(command, format!("{} has no value", option.name)))
                    }
                    (Some(_), Some(value)) => value.into(),
                    (Some(what), None) => words.next().cloned().ok_or_else(|| {
                        wrong(command, format!("{} wants {what} behind it", option.name))
                    })?,
                };
                arguments.take(command, option, value)?;
            }
            _ => arguments.operands.push(word.clone()),
        }
    }
    expect_count(command, arguments.operands.len())?;
    Ok(Some(arguments))
}

/// The option that was typed, and its value if that stands behind `=`.
fn option<'a>(command: &'a Command, typed: &'a str) -> Result<(&'a Opt, Option<&'a str>), Failure> {
    let (name, value) = match typed.split_once('=') {
        Some((name, value)) => (name, Some(value)),
        None => (typed, None),
    };
    if let Some(option) = command.options.iter().find(|x| x.name == name) {
        return Ok((option, value));
    }
    let known = command.options.iter().map(|x| x.name).chain(["--help"]);
    let meant = nearest(name, known);
    let hint = meant.map_or(String::new(), |x| format!("; did you mean '{x}'?"));
    Err(wrong(command, format!("no option '{name}'{hint}")))
}

fn expect_count(command: &Command, found: usize) -> Result<(), Failure> {
    let (least, most) = command.count;
    let problem = match found {
        _ if found < least => "too few words",
        _ if found > most => "too many words",
        _ => return Ok(()),
    };
    let usage = format!(
        "{problem}; it is 'bohrali {} {}'",
        command.name, command.operands
    );
    Err(wrong(command, usage))
}

fn wrong(command: &Command, message: String) -> Failure {
    let name = command.name;
    Failure::words(format!(
        "{name}: {message} ('bohrali {name} --help' tells more)"
    ))
}
