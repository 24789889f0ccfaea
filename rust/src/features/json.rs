//! Variables in the string values of JSON documents.
//!
//! A document is read first, and then each string value is expanded, so no value breaks out of its string.
//!
//! ```
//! use serde_json::{json, Value};
//! use std::collections::BTreeMap;
//!
//! let variables = BTreeMap::from([("name", r#"", "admin": true"#)]);
//! let value: Value = subst::json::from_str(r#"{"user": "$name", "port": 80}"#, &variables)?;
//! assert_eq!(value, json!({"user": r#"", "admin": true"#, "port": 80}));
//! # Ok::<(), subst::json::Error>(())
//! ```

use super::expand_in_place;
use crate::VariableMap;
use serde::de::DeserializeOwned;
use serde_json::Value;
use std::fmt;

/// Reads a type from JSON, with variables in string values.
///
/// # Errors
///
/// [`Error::Json`] if the source isn't JSON, or isn't of the type; [`Error::Subst`] for the first refused
/// string.
pub fn from_slice<'a, T, M>(source: &[u8], variables: &'a M) -> Result<T, Error>
where
    T: DeserializeOwned,
    M: VariableMap<'a> + ?Sized,
    M::Value: AsRef<str>,
{
    filled_in(serde_json::from_slice(source)?, variables)
}

/// Reads a type from JSON, as [`from_slice`] does.
///
/// # Errors
///
/// [`Error::Json`] if the source isn't JSON, or isn't of the type; [`Error::Subst`] for the first refused
/// string.
pub fn from_str<'a, T, M>(source: &str, variables: &'a M) -> Result<T, Error>
where
    T: DeserializeOwned,
    M: VariableMap<'a> + ?Sized,
    M::Value: AsRef<str>,
{
    filled_in(serde_json::from_str(source)?, variables)
}

/// Fills in a tree, and reads a type from it.
fn filled_in<'a, T, M>(mut value: Value, variables: &'a M) -> Result<T, Error>
where
    T: DeserializeOwned,
    M: VariableMap<'a> + ?Sized,
    M::Value: AsRef<str>,
{
    substitute_string_values(&mut value, variables)?;
    Ok(T::deserialize(value)?)
}

/// Expands all string values of a tree in place. Keys stay as they are.
///
/// # Errors
///
/// The error of the first refused string, with its position in that string. The strings before it stay
/// expanded.
pub fn substitute_string_values<'a, M>(value: &mut Value, variables: &'a M) -> Result<(), crate::Error>
where
    M: VariableMap<'a> + ?Sized,
    M::Value: AsRef<str>,
{
    match value {
        Value::String(string) => expand_in_place(string, variables),
        Value::Array(items) => items
            .iter_mut()
            .try_for_each(|item| substitute_string_values(item, variables)),
        Value::Object(map) => map
            .values_mut()
            .try_for_each(|item| substitute_string_values(item, variables)),
        Value::Null | Value::Bool(_) | Value::Number(_) => Ok(()),
    }
}

/// An error of reading JSON with variables.
#[derive(Debug)]
pub enum Error {
    /// The source isn't JSON, or isn't of the type.
    Json(serde_json::Error),
    /// A string is refused.
    Subst(crate::Error),
}

impl fmt::Display for Error {
    fn fmt(&self, f: &mut fmt::Formatter<'_>) -> fmt::Result {
        match self {
            Error::Json(e) => e.fmt(f),
            Error::Subst(e) => e.fmt(f),
        }
    }
}

impl std::error::Error for Error {}

impl From<serde_json::Error> for Error {
    fn from(e: serde_json::Error) -> Error {
        Error::Json(e)
    }
}

impl From<crate::Error> for Error {
    fn from(e: crate::Error) -> Error {
        Error::Subst(e)
    }
}
