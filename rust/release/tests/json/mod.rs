//! A small reader of JSON, as strict as the tests need.

use std::iter::Peekable;
use std::str::Chars;

/// A value. Numbers are whole and not negative: the tool writes no others.
#[derive(Clone, PartialEq, Eq, Debug)]
pub enum Json {
    Null,
    Bool(bool),
    Number(u64),
    String(String),
    Array(Vec<Json>),
    Object(Vec<(String, Json)>),
}

impl Json {
    /// The one value that a line holds.
    pub fn read(line: &str) -> Json {
        let text = line.strip_suffix('\n').expect("a whole line");
        assert!(!text.contains('\n'), "one line: {line:?}");
        let mut signs = text.chars().peekable();
        let value = value(&mut signs);
        assert_eq!(signs.next(), None, "something after the value: {line:?}");
        value
    }

    /// The names of an object's fields, in order.
    pub fn names(&self) -> Vec<&str> {
        match self {
            Json::Object(fields) => fields.iter().map(|(name, _)| name.as_str()).collect(),
            other => panic!("no object: {other:?}"),
        }
    }

    /// A field of an object that has it once.
    pub fn field(&self, name: &str) -> &Json {
        let Json::Object(fields) = self else {
            panic!("no object: {self:?}");
        };
        let mut own = fields.iter().filter(|field| field.0 == name);
        match (own.next(), own.next()) {
            (Some((_, value)), None) => value,
            _ => panic!("not one {name}: {self:?}"),
        }
    }

    pub fn number(&self) -> usize {
        match self {
            Json::Number(number) => *number as usize,
            other => panic!("no number: {other:?}"),
        }
    }

    pub fn bool(&self) -> bool {
        match self {
            Json::Bool(value) => *value,
            other => panic!("neither true nor false: {other:?}"),
        }
    }

    pub fn string(&self) -> &str {
        match self {
            Json::String(text) => text,
            other => panic!("no string: {other:?}"),
        }
    }

    pub fn array(&self) -> &[Json] {
        match self {
            Json::Array(values) => values,
            other => panic!("no array: {other:?}"),
        }
    }
}

type Signs<'a> = Peekable<Chars<'a>>;

fn expect(signs: &mut Signs, text: &str) {
    for sign in text.chars() {
        assert_eq!(signs.next(), Some(sign), "in {text:?}");
    }
}

fn value(signs: &mut Signs) -> Json {
    match signs.peek() {
        Some('n') => {
            expect(signs, "null");
            Json::Null
        }
        Some('t') => {
            expect(signs, "true");
            Json::Bool(true)
        }
        Some('f') => {
            expect(signs, "false");
            Json::Bool(false)
        }
        Some('"') => Json::String(string(signs)),
        Some('[') => Json::Array(list(signs, ['[', ']'], value)),
        Some('{') => Json::Object(list(signs, ['{', '}'], |signs| {
            let name = string(signs);
            expect(signs, ":");
            (name, value(signs))
        })),
        _ => number(signs),
    }
}

fn number(signs: &mut Signs) -> Json {
    let mut digits = String::new();
    while let Some(digit) = signs.next_if(char::is_ascii_digit) {
        digits.push(digit);
    }
    assert!(digits == "0" || !digits.starts_with('0'), "{digits}");
    Json::Number(digits.parse().expect("a number"))
}

fn list<T>(signs: &mut Signs, [open, close]: [char; 2], item: fn(&mut Signs) -> T) -> Vec<T> {
    assert_eq!(signs.next(), Some(open));
    let mut items = Vec::new();
    while signs.peek() != Some(&close) {
        if !items.is_empty() {
            expect(signs, ",");
        }
        items.push(item(signs));
    }
    signs.next();
    items
}

fn string(signs: &mut Signs) -> String {
    expect(signs, "\"");
    let mut text = String::new();
    loop {
        match signs.next().expect("a string's end") {
            '"' => return text,
            '\\' => text.push(escaped(signs)),
            sign => {
                assert!(sign >= ' ', "a control sign in a string");
                text.push(sign);
            }
        }
    }
}

fn escaped(signs: &mut Signs) -> char {
    match signs.next() {
        Some(sign @ ('"' | '\\')) => sign,
        Some('u') => {
            let digits: String = signs.take(4).collect();
            let number = u32::from_str_radix(&digits, 16).expect("four digits");
            char::from_u32(number).expect("a sign")
        }
        other => panic!("an unknown escape: {other:?}"),
    }
}
