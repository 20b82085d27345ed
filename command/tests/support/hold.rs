//! Holding what the command said to what was expected, with a sentence where
//! it is not that.

use std::fmt::Debug;

use super::json::Json;

pub type Held = Result<(), String>;

pub fn holds(what: &str, held: bool) -> Held {
    if held {
        Ok(())
    } else {
        Err(what.to_string())
    }
}

pub fn equal<T: PartialEq + Debug>(what: &str, said: T, expected: T) -> Held {
    let unequal = || format!("{what}: said {said:?}, expected {expected:?}");
    if said == expected {
        Ok(())
    } else {
        Err(unequal())
    }
}

pub fn number(object: &Json, key: &str) -> Result<i64, String> {
    let field = object.get(key).and_then(Json::number);
    field.ok_or_else(|| format!("no number {key:?} in {object:?}"))
}

/// A number, or null as nothing.
pub fn optional(object: &Json, key: &str) -> Result<Option<i64>, String> {
    match object.get(key) {
        Some(Json::Null) => Ok(None),
        _ => number(object, key).map(Some),
    }
}

pub fn list<'j>(object: &'j Json, key: &str) -> Result<&'j [Json], String> {
    let field = object.get(key).and_then(Json::list);
    field.ok_or_else(|| format!("no list {key:?} in {object:?}"))
}

pub fn text<'j>(object: &'j Json, key: &str) -> Result<&'j str, String> {
    let field = object.get(key).and_then(Json::text);
    field.ok_or_else(|| format!("no text {key:?} in {object:?}"))
}
