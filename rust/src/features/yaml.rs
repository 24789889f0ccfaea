//! Variables in the string values of YAML documents.
//!
//! A document is read first, and then each string value is expanded, so no value breaks out of its string.
//!
//! ```
//! use std::collections::BTreeMap;
//!
//! let variables = BTreeMap::from([("name", "\nadmin: true")]);
//! let value: serde_yaml::Value = subst::yaml::from_str("user: $name\nport: 80\n", &variables)?;
//! assert_eq!(value["user"].as_str(), Some("\nadmin: true"));
//! assert_eq!(value.get("admin"), None);
//! # Ok::<(), subst::yaml::Error>(())
//! ```

use super::expand_in_place;
use crate::VariableMap;
use serde::de::DeserializeOwned;
use serde_yaml::Value;
use std::fmt;

/// Reads a type from YAML, with variables in string values.
///
/// # Errors
///
/// [`Error::Yaml`] if the source isn't YAML, or isn't of the type; [`Error::Subst`] for the first refused
/// string.
pub fn from_slice<'a, T, M>(source: &[u8], variables: &'a M) -> Result<T, Error>
where
    T: DeserializeOwned,
    M: VariableMap<'a> + ?Sized,
    M::Value: AsRef<str>,
{
    filled_in(serde_yaml::from_slice(source)?, variables)
}

/// Reads a type from YAML, as [`from_slice`] does.
///
/// # Errors
///
/// [`Error::Yaml`] if the source isn't YAML, or isn't of the type; [`Error::Subst`] for the first refused
/// string.
pub fn from_str<'a, T, M>(source: &str, variables: &'a M) -> Result<T, Error>
where
    T: DeserializeOwned,
    M: VariableMap<'a> + ?Sized,
    M::Value: AsRef<str>,
{
    filled_in(serde_yaml::from_str(source)?, variables)
}

/// Fills in a tree, and reads a type from it.
fn filled_in<'a, T, M>(mut value: Value, variables: &'a M) -> Result<T, Error>
where
    T: DeserializeOwned,
    M: VariableMap<'a> + ?Sized,
    M::Value: AsRef<str>,
{
    substitute_string_values(&mut value, variables)?;
    Ok(T::deserialize(value)?)
}

/// Expands all string values of a tree in place. Keys stay as they are.
///
/// # Errors
///
/// The error of the first refused string, with its position in that string. The strings before it stay
/// expanded.
pub fn substitute_string_values<'a, M>(value: &mut Value, variables: &'a M) -> Result<(), crate::Error>
where
    M: VariableMap<'a> + ?Sized,
    M::Value: AsRef<str>,
{
    if let Value::String(string) = value {
        return expand_in_place(string, variables);
    }
    // These two calls also see through the tags of later releases.
    if let Some(items) = value.as_sequence_mut() {
        return items
            .iter_mut()
            .try_for_each(|item| substitute_string_values(item, variables));
    }
    if let Some(map) = value.as_mapping_mut() {
        return map
            .iter_mut()
            .try_for_each(|(_, item)| substitute_string_values(item, variables));
    }
    Ok(())
}

/// An error of reading YAML with variables.
#[derive(Debug)]
pub enum Error {
    /// The source isn't YAML, or isn't of the type.
    Yaml(serde_yaml::Error),
    /// A string is refused.
    Subst(crate::Error),
}

impl fmt::Display for Error {
    fn fmt(&self, f: &mut fmt::Formatter<'_>) -> fmt::Result {
        match self {
            Error::Yaml(e) => e.fmt(f),
            Error::Subst(e) => e.fmt(f),
        }
    }
}

impl std::error::Error for Error {}

impl From<serde_yaml::Error> for Error {
    fn from(e: serde_yaml::Error) -> Error {
        Error::Yaml(e)
    }
}

impl From<crate::Error> for Error {
    fn from(e: crate::Error) -> Error {
        Error::Subst(e)
    }
}
