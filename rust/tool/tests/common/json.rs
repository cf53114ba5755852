//! JSON read back, as far as the documents go.

use std::iter::Peekable;
use std::str::Chars;

#[derive(Clone, Debug, PartialEq)]
pub enum Value {
    Null,
    Bool(bool),
    Number(u64),
    Text(String),
    List(Vec<Value>),
    Object(Vec<(String, Value)>),
}

impl Value {
    /// The value of a document that has nothing behind it but a line end.
    pub fn read(text: &str) -> Value {
        let mut letters = text.chars().peekable();
        let value = value(&mut letters);
        assert_eq!(letters.collect::<String>(), "\n", "{text}");
        value
    }

    pub fn keys(&self) -> Vec<&str> {
        match self {
            Value::Object(fields) => fields.iter().map(|x| x.0.as_str()).collect(),
            _ => panic!("{self:?} is no object"),
        }
    }

    pub fn get(&self, key: &str) -> &Value {
        match self {
            Value::Object(fields) => &fields.iter().find(|x| x.0 == key).expect(key).1,
            _ => panic!("{self:?} is no object"),
        }
    }

    pub fn items(&self) -> &[Value] {
        match self {
            Value::List(items) => items,
            _ => panic!("{self:?} is no list"),
        }
    }

    pub fn number(&self) -> u64 {
        match self {
            Value::Number(number) => *number,
            _ => panic!("{self:?} is no number"),
        }
    }

    pub fn text(&self) -> &str {
        match self {
            Value::Text(text) => text,
            _ => panic!("{self:?} is no text"),
        }
    }
}

fn value(letters: &mut Peekable<Chars>) -> Value {
    match letters.peek() {
        Some('{') => Value::Object(between(letters, '}', |letters| {
            let Value::Text(key) = value(letters) else {
                panic!("a key is text");
            };
            assert_eq!(letters.next(), Some(':'));
            (key, value(letters))
        })),
        Some('[') => Value::List(between(letters, ']', value)),
        Some('"') => Value::Text(text(letters)),
        Some(x) if x.is_ascii_digit() => {
            let mut digits = String::new();
            while let Some(digit) = letters.next_if(char::is_ascii_digit) {
                digits.push(digit);
            }
            Value::Number(digits.parse().expect("a number"))
        }
        _ => {
            let mut word = String::new();
            while let Some(letter) = letters.next_if(char::is_ascii_lowercase) {
                word.push(letter);
            }
            match word.as_str() {
                "null" => Value::Null,
                "true" => Value::Bool(true),
                "false" => Value::Bool(false),
                _ => panic!("'{word}' is no value"),
            }
        }
    }
}

fn between<T>(
    letters: &mut Peekable<Chars>,
    end: char,
    mut each: impl FnMut(&mut Peekable<Chars>) -> T,
) -> Vec<T> {
    letters.next();
    let mut items = Vec::new();
    if letters.next_if_eq(&end).is_some() {
        return items;
    }
    loop {
        items.push(each(letters));
        match letters.next() {
            Some(',') => {}
            next => {
                assert_eq!(next, Some(end));
                return items;
            }
        }
    }
}

fn text(letters: &mut Peekable<Chars>) -> String {
    letters.next();
    let mut text = String::new();
    loop {
        match letters.next().expect("text is closed") {
            '"' => return text,
            '\\' => text.push(match letters.next() {
                Some('n') => '\n',
                Some('u') => {
                    let code: String = letters.take(4).collect();
                    let number = u32::from_str_radix(&code, 16).expect("four digits");
                    char::from_u32(number).expect("a letter")
                }
                other => other.expect("an escaped letter"),
            }),
            letter => {
                assert!(!letter.is_control(), "control characters are escaped");
                text.push(letter);
            }
        }
    }
}
