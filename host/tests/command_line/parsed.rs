//! JSON as the program writes it, read back.

use std::collections::BTreeSet;

/// A value.
#[derive(Clone, Debug, PartialEq)]
pub enum Json {
    Null,
    Bool(bool),
    Number(u64),
    Text(String),
    List(Vec<Json>),
    Object(Vec<(String, Json)>),
}

impl Json {
    /// The value of a whole text.
    pub fn parse(text: &str) -> Json {
        let (value, rest) = value(text.trim_end());
        assert_eq!(rest, "", "nothing behind the value");
        value
    }

    /// A field of an object.
    pub fn get(&self, key: &str) -> &Json {
        let Json::Object(fields) = self else { panic!("no object: {self:?}") };
        let field = fields.iter().find(|(name, _)| name == key);
        &field.unwrap_or_else(|| panic!("no {key} in {self:?}")).1
    }

    pub fn list(&self) -> &[Json] {
        let Json::List(values) = self else { panic!("no list: {self:?}") };
        values
    }

    pub fn number(&self) -> usize {
        let Json::Number(number) = self else { panic!("no number: {self:?}") };
        *number as usize
    }

    pub fn numbers(&self) -> Vec<usize> {
        self.list().iter().map(Json::number).collect()
    }

    /// The pairs of numbers of a list.
    pub fn pairs(&self) -> Vec<(usize, usize)> {
        self.list().iter().map(Json::pair).collect()
    }

    pub fn pair(&self) -> (usize, usize) {
        let [one, other] = self.numbers()[..] else { panic!("no pair: {self:?}") };
        (one, other)
    }

    pub fn text(&self) -> &str {
        let Json::Text(text) = self else { panic!("no text: {self:?}") };
        text
    }

    /// The names of all fields in it.
    pub fn keys(&self) -> BTreeSet<String> {
        match self {
            Json::List(values) => values.iter().flat_map(Json::keys).collect(),
            Json::Object(fields) => {
                let inside = fields.iter().flat_map(|(_, value)| value.keys());
                fields.iter().map(|(name, _)| name.clone()).chain(inside).collect()
            }
            _ => BTreeSet::new(),
        }
    }
}

/// The value that a text begins with, and the rest.
fn value(text: &str) -> (Json, &str) {
    let words = [("null", Json::Null), ("true", Json::Bool(true)), ("false", Json::Bool(false))];
    for (word, value) in words {
        if let Some(rest) = text.strip_prefix(word) {
            return (value, rest);
        }
    }
    match text.as_bytes().first() {
        Some(b'"') => {
            let (text, rest) = string(text);
            (Json::Text(text), rest)
        }
        Some(b'[') => {
            let (values, rest) = several(text, ']', value);
            (Json::List(values), rest)
        }
        Some(b'{') => {
            let (fields, rest) = several(text, '}', field);
            (Json::Object(fields), rest)
        }
        _ => {
            let end = text.find(|c: char| !c.is_ascii_digit()).unwrap_or(text.len());
            (Json::Number(text[..end].parse().expect("a number")), &text[end..])
        }
    }
}

/// What stands between a bracket and its partner, with commas between.
fn several<T>(text: &str, end: char, one: fn(&str) -> (T, &str)) -> (Vec<T>, &str) {
    let (mut values, mut rest) = (Vec::new(), &text[1..]);
    while !rest.starts_with(end) {
        if !values.is_empty() {
            rest = rest.strip_prefix(',').expect("a comma");
        }
        let (value, behind) = one(rest);
        values.push(value);
        rest = behind;
    }
    (values, &rest[1..])
}

fn field(text: &str) -> ((String, Json), &str) {
    let (name, rest) = string(text);
    let (value, rest) = value(rest.strip_prefix(':').expect("a colon"));
    ((name, value), rest)
}

fn string(text: &str) -> (String, &str) {
    let (mut string, mut chars) = (String::new(), text[1..].char_indices());
    while let Some((i, c)) = chars.next() {
        match c {
            '"' => return (string, &text[i + 2..]),
            '\\' => match chars.next().expect("a character").1 {
                'u' => {
                    let code: String = chars.by_ref().take(4).map(|(_, c)| c).collect();
                    let code = u32::from_str_radix(&code, 16).expect("a code");
                    string.push(char::from_u32(code).expect("a character"));
                }
                c => string.push(c),
            },
            c => string.push(c),
        }
    }
    panic!("no end: {text}")
}
