//! Names of criticals as words. A chart has numbers for them.

use std::collections::{BTreeMap, BTreeSet};

/// The name of a critical as a table has it.
#[derive(Clone, Debug, PartialEq, Eq)]
pub enum Name {
    Unnamed,
    Number(u16),
    Word(String),
}

impl Name {
    /// A word of letters, digits, `_` and `$`, or a number that is not 0.
    pub fn read(text: &str) -> Option<Name> {
        let is_first = |x: char| x.is_ascii_alphabetic() || x == '_';
        let is_letter = |x: char| x.is_ascii_alphanumeric() || x == '_' || x == '$';
        if text.starts_with(is_first) && text.chars().all(is_letter) {
            return Some(Name::Word(text.into()));
        }
        decimal(text).filter(|&x| x != 0).map(Name::Number)
    }
}

/// A number without leading zeros.
pub(crate) fn decimal<T: std::str::FromStr>(text: &str) -> Option<T> {
    let plain = text.bytes().all(|x| x.is_ascii_digit()) && (text == "0" || !text.starts_with('0'));
    plain.then(|| text.parse().ok())?
}

/// The words behind the numbers of a chart's names.
#[derive(Clone, Debug, Default, PartialEq, Eq)]
pub struct Names(BTreeMap<u16, String>);

impl Names {
    /// Numbers for the names of criticals in the order of their constructs: a word gets the lowest from 1
    /// that no critical has as a number.
    pub fn number(names: &[Name]) -> (Names, Vec<u16>) {
        let taken: BTreeSet<u16> = names.iter().filter_map(Name::as_number).collect();
        let mut free = (1..=u16::MAX).filter(|x| !taken.contains(x));
        let mut words = BTreeMap::new();
        let mut given = BTreeMap::new();
        let mut number = |name: &Name| match name {
            Name::Unnamed => 0,
            Name::Number(number) => *number,
            Name::Word(word) => *given.entry(word.clone()).or_insert_with(|| {
                let number = free.next().unwrap_or(0);
                words.insert(number, word.clone());
                number
            }),
        };
        let numbers = names.iter().map(&mut number).collect();
        (Names(words), numbers)
    }

    /// The name of a number.
    pub fn name(&self, number: u16) -> Name {
        match self.0.get(&number) {
            Some(word) => Name::Word(word.clone()),
            None if number == 0 => Name::Unnamed,
            None => Name::Number(number),
        }
    }
}

impl Name {
    fn as_number(&self) -> Option<u16> {
        match self {
            Name::Number(number) => Some(*number),
            Name::Unnamed | Name::Word(_) => None,
        }
    }
}
