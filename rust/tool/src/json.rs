//! JSON documents, written by hand.

use std::borrow::Cow;
use std::fmt;

pub enum Json<'a> {
    Null,
    Bool(bool),
    Number(usize),
    Text(Cow<'a, str>),
    List(Vec<Json<'a>>),
    Object(Vec<(&'static str, Json<'a>)>),
}

impl<'a> Json<'a> {
    /// A list of what each item becomes.
    pub fn list<T>(
        items: impl IntoIterator<Item = T>,
        each: impl FnMut(T) -> Json<'a>,
    ) -> Json<'a> {
        Json::List(items.into_iter().map(each).collect())
    }

    pub fn number(number: impl Into<usize>) -> Json<'a> {
        Json::Number(number.into())
    }

    pub fn text(text: impl Into<Cow<'a, str>>) -> Json<'a> {
        Json::Text(text.into())
    }

    /// A value, or null.
    pub fn option<T>(value: Option<T>, each: impl FnOnce(T) -> Json<'a>) -> Json<'a> {
        value.map_or(Json::Null, each)
    }

    /// The document as a command prints it.
    pub fn document(&self) -> String {
        format!("{self}\n")
    }
}

impl fmt::Display for Json<'_> {
    fn fmt(&self, f: &mut fmt::Formatter<'_>) -> fmt::Result {
        match self {
            Json::Null => write!(f, "null"),
            Json::Bool(value) => write!(f, "{value}"),
            Json::Number(number) => write!(f, "{number}"),
            Json::Text(text) => write_text(f, text),
            Json::List(items) => {
                write!(f, "[")?;
                for (place, item) in items.iter().enumerate() {
                    write!(f, "{}{item}", if place == 0 { "" } else { "," })?;
                }
                write!(f, "]")
            }
            Json::Object(fields) => {
                write!(f, "{{")?;
                for (place, (key, value)) in fields.iter().enumerate() {
                    write!(f, "{}\"{key}\":{value}", if place == 0 { "" } else { "," })?;
                }
                write!(f, "}}")
            }
        }
    }
}

fn write_text(f: &mut fmt::Formatter<'_>, text: &str) -> fmt::Result {
    // The line separators are no line ends in JSON, and are in scripts.
    let is_escaped = |x: char| matches!(x, '"' | '\\' | '\u{2028}' | '\u{2029}') || x.is_control();
    f.write_str("\"")?;
    let mut rest = text;
    while let Some(at) = rest.find(is_escaped) {
        f.write_str(&rest[..at])?;
        let letter = rest[at..].chars().next().unwrap_or(' ');
        match letter {
            '"' | '\\' => write!(f, "\\{letter}")?,
            '\n' => f.write_str("\\n")?,
            _ => write!(f, "\\u{:04x}", u32::from(letter))?,
        }
        rest = &rest[at + letter.len_utf8()..];
    }
    f.write_str(rest)?;
    f.write_str("\"")
}
