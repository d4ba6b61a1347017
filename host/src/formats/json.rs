//! Values as JSON, in one line.

use std::fmt;

/// A value.
///
/// ```
/// use raskjomi::formats::json::{list, object, Value};
/// let value = object([("name", Value::from("a \"b\"")), ("members", list([0, 2]))]);
/// assert_eq!(value.to_string(), r#"{"name":"a \"b\"","members":[0,2]}"#);
/// ```
#[derive(Clone, Debug, PartialEq, Eq)]
pub enum Value {
    /// `null`.
    Null,
    /// `true` or `false`.
    Bool(bool),
    /// A number.
    Number(u64),
    /// A text.
    Text(String),
    /// Values one after the other.
    List(Vec<Value>),
    /// Values by their names, in sequence.
    Object(Vec<(&'static str, Value)>),
}

impl From<usize> for Value {
    fn from(number: usize) -> Value {
        Value::Number(number as u64)
    }
}

impl From<&str> for Value {
    fn from(text: &str) -> Value {
        Value::Text(text.into())
    }
}

impl Value {
    /// Adds a field to an object.
    ///
    /// ```
    /// use raskjomi::formats::json::{object, Value};
    /// let mut value = object([]);
    /// value.add("class", Value::from(3));
    /// assert_eq!(value.to_string(), r#"{"class":3}"#);
    /// ```
    pub fn add(&mut self, name: &'static str, value: Value) {
        if let Value::Object(fields) = self {
            fields.push((name, value));
        }
    }
}

/// An object of these fields, in sequence.
///
/// ```
/// use raskjomi::formats::json::{object, Value};
/// assert_eq!(object([("class", Value::from(3))]).to_string(), r#"{"class":3}"#);
/// ```
pub fn object(fields: impl IntoIterator<Item = (&'static str, Value)>) -> Value {
    Value::Object(fields.into_iter().collect())
}

/// A list of these values.
///
/// ```
/// assert_eq!(raskjomi::formats::json::list(["a", "b"]).to_string(), r#"["a","b"]"#);
/// ```
pub fn list<T: Into<Value>>(values: impl IntoIterator<Item = T>) -> Value {
    Value::List(values.into_iter().map(T::into).collect())
}

impl fmt::Display for Value {
    fn fmt(&self, f: &mut fmt::Formatter) -> fmt::Result {
        match self {
            Value::Null => f.write_str("null"),
            Value::Bool(value) => write!(f, "{value}"),
            Value::Number(number) => write!(f, "{number}"),
            Value::Text(text) => f.write_str(&quoted(text)),
            Value::List(values) => {
                for (i, value) in values.iter().enumerate() {
                    write!(f, "{}{value}", if i == 0 { "[" } else { "," })?;
                }
                f.write_str(if values.is_empty() { "[]" } else { "]" })
            }
            Value::Object(fields) => {
                for (i, (key, value)) in fields.iter().enumerate() {
                    write!(f, "{}\"{key}\":{value}", if i == 0 { "{" } else { "," })?;
                }
                f.write_str(if fields.is_empty() { "{}" } else { "}" })
            }
        }
    }
}

/// A text between quotes.
fn quoted(text: &str) -> String {
    let mut quoted = String::from("\"");
    for c in text.chars() {
        match c {
            '"' | '\\' => quoted.extend(['\\', c]),
            _ if c.is_control() => quoted += &format!("\\u{:04x}", c as u32),
            _ => quoted.push(c),
        }
    }
    quoted + "\""
}
