//! Variables in the string values of TOML documents.
//!
//! A document is read first, and then each string value is expanded, so no value breaks out of its string.
//!
//! ```
//! use std::collections::BTreeMap;
//!
//! let variables = BTreeMap::from([("name", "\nadmin = true")]);
//! let value: toml::Value = subst::toml::from_str("user = \"$name\"\nport = 80\n", &variables)?;
//! assert_eq!(value["user"].as_str(), Some("\nadmin = true"));
//! assert_eq!(value.get("admin"), None);
//! # Ok::<(), subst::toml::Error>(())
//! ```

use super::expand_in_place;
use crate::VariableMap;
use serde::de::DeserializeOwned;
use std::fmt;
use toml::Value;

/// Reads a type from TOML, with variables in string values.
///
/// # Errors
///
/// - [`Error::InvalidUtf8`] if the source isn't UTF-8.
/// - [`Error::Toml`] if it isn't TOML, or isn't of the type.
/// - [`Error::Subst`] for the first refused string.
pub fn from_slice<'a, T, M>(source: &[u8], variables: &'a M) -> Result<T, Error>
where
    T: DeserializeOwned,
    M: VariableMap<'a> + ?Sized,
    M::Value: AsRef<str>,
{
    from_str(std::str::from_utf8(source)?, variables)
}

/// Reads a type from TOML, as [`from_slice`] does.
///
/// # Errors
///
/// [`Error::Toml`] if the source isn't TOML, or isn't of the type; [`Error::Subst`] for the first refused
/// string.
pub fn from_str<'a, T, M>(source: &str, variables: &'a M) -> Result<T, Error>
where
    T: DeserializeOwned,
    M: VariableMap<'a> + ?Sized,
    M::Value: AsRef<str>,
{
    let mut value = toml::from_str::<Value>(source)?;
    substitute_string_values(&mut value, variables)?;
    Ok(value.try_into()?)
}

/// Expands all string values of a tree in place. Keys stay as they are.
///
/// # Errors
///
/// The error of the first refused string, with its position in that string. The strings before it stay
/// expanded.
pub fn substitute_string_values<'a, M>(value: &mut Value, variables: &'a M) -> Result<(), crate::Error>
where
    M: VariableMap<'a> + ?Sized,
    M::Value: AsRef<str>,
{
    match value {
        Value::String(string) => expand_in_place(string, variables),
        Value::Array(items) => items
            .iter_mut()
            .try_for_each(|item| substitute_string_values(item, variables)),
        Value::Table(map) => map
            .iter_mut()
            .try_for_each(|(_, item)| substitute_string_values(item, variables)),
        Value::Integer(_) | Value::Float(_) | Value::Boolean(_) | Value::Datetime(_) => Ok(()),
    }
}

/// An error of reading TOML with variables.
#[derive(Debug)]
pub enum Error {
    /// The source isn't UTF-8.
    InvalidUtf8(std::str::Utf8Error),
    /// The source isn't TOML, or isn't of the type.
    Toml(toml::de::Error),
    /// A string is refused.
    Subst(crate::Error),
}

impl fmt::Display for Error {
    fn fmt(&self, f: &mut fmt::Formatter<'_>) -> fmt::Result {
        match self {
            Error::InvalidUtf8(e) => e.fmt(f),
            Error::Toml(e) => e.fmt(f),
            Error::Subst(e) => e.fmt(f),
        }
    }
}

impl std::error::Error for Error {}

impl From<std::str::Utf8Error> for Error {
    fn from(e: std::str::Utf8Error) -> Error {
        Error::InvalidUtf8(e)
    }
}

impl From<toml::de::Error> for Error {
    fn from(e: toml::de::Error) -> Error {
        Error::Toml(e)
    }
}

impl From<crate::Error> for Error {
    fn from(e: crate::Error) -> Error {
        Error::Subst(e)
    }
}
