//! JSON, written by hand: one value, its fields in the order in which they are
//! given.

use std::fmt;

/// A JSON value.
#[derive(Clone, PartialEq, Debug)]
pub enum Value {
    Null,
    Bool(bool),
    Number(i128),
    Text(String),
    List(Vec<Value>),
    Object(Vec<(&'static str, Value)>),
}

impl Value {
    pub fn text(text: &str) -> Value {
        Value::Text(text.to_string())
    }

    pub fn number(number: impl Into<i128>) -> Value {
        Value::Number(number.into())
    }
}

/// A list of what `value` makes of each item.
pub fn list<T>(items: &[T], value: impl Fn(&T) -> Value) -> Value {
    Value::List(items.iter().map(value).collect())
}

/// Null where there is nothing.
pub fn optional<T>(item: &Option<T>, value: impl Fn(&T) -> Value) -> Value {
    item.as_ref().map_or(Value::Null, value)
}

impl fmt::Display for Value {
    fn fmt(&self, f: &mut fmt::Formatter<'_>) -> fmt::Result {
        match self {
            Value::Null => write!(f, "null"),
            Value::Bool(truth) => write!(f, "{truth}"),
            Value::Number(number) => write!(f, "{number}"),
            Value::Text(text) => write_text(f, text),
            Value::List(items) => write_list(f, items),
            Value::Object(fields) => write_object(f, fields),
        }
    }
}

/// Quotation marks, backslashes and control characters are escaped.
fn write_text(f: &mut fmt::Formatter<'_>, text: &str) -> fmt::Result {
    write!(f, "\"")?;
    for character in text.chars() {
        match character {
            '"' => write!(f, "\\\"")?,
            '\\' => write!(f, "\\\\")?,
            '\n' => write!(f, "\\n")?,
            '\t' => write!(f, "\\t")?,
            '\r' => write!(f, "\\r")?,
            control if control.is_control() => write!(f, "\\u{:04x}", u32::from(control))?,
            other => write!(f, "{other}")?,
        }
    }
    write!(f, "\"")
}

fn write_list(f: &mut fmt::Formatter<'_>, items: &[Value]) -> fmt::Result {
    write!(f, "[")?;
    for (index, item) in items.iter().enumerate() {
        let comma = if index > 0 { ", " } else { "" };
        write!(f, "{comma}{item}")?;
    }
    write!(f, "]")
}

fn write_object(f: &mut fmt::Formatter<'_>, fields: &[(&'static str, Value)]) -> fmt::Result {
    write!(f, "{{")?;
    for (index, (name, value)) in fields.iter().enumerate() {
        let comma = if index > 0 { ", " } else { "" };
        write!(f, "{comma}\"{name}\": {value}")?;
    }
    write!(f, "}}")
}

#[cfg(test)]
mod tests {
    use super::*;

    #[test]
    fn values_are_written_in_order() {
        let value = Value::Object(vec![
            ("b", Value::List(vec![Value::number(-1), Value::Bool(true)])),
            ("a", Value::Null),
            ("c", Value::List(vec![])),
        ]);
        assert_eq!(
            value.to_string(),
            r#"{"b": [-1, true], "a": null, "c": []}"#
        );
    }

    #[test]
    fn characters_are_escaped() {
        let text = Value::text("a\"b\\c\n\t\r\u{0}\u{7f}é");
        assert_eq!(text.to_string(), r#""a\"b\\c\n\t\r\u0000\u007fé""#);
    }
}
