//! Shell-like variables in texts and byte strings.
//!
//! This crate has the names of the crate `subst` 0.3.8, over a proved library in C's calling convention.
//!
//! ```
//! use std::collections::BTreeMap;
//!
//! let variables = BTreeMap::from([("name", "world")]);
//! assert_eq!(subst::substitute("Hello $name!", &variables)?, "Hello world!");
//! assert_eq!(subst::substitute("Hello ${title:dear $name}!", &variables)?, "Hello dear world!");
//! # Ok::<(), subst::Error>(())
//! ```
//!
//! # Language
//!
//! - `$name` and `${name}` expand to the value of a variable. A name has ASCII letters, digits and `_`.
//! - `${name:default}` expands to the default if the variable is unset. A default is again a template.
//! - A backslash escapes `\`, `$`, `{`, `}` and `:`.
//!
//! Values are inserted as they are, and never parsed as templates.
//!
//! # Errors
//!
//! An [`Error`] has the position of a fault, and shows it in its source:
//!
//! ```
//! let source = "Hello ${name";
//! let error = subst::substitute(source, &subst::Env).unwrap_err();
//! assert_eq!(error.to_string(), "Missing closing brace");
//! assert_eq!(error.source_highlighting(source), "  Hello ${name\n         ^\n");
//! ```
//!
//! # Features
//!
//! `json`, `toml` and `yaml` are the modules of these names, for documents. `indexmap` makes `IndexMap` a map
//! of variables. `preserve-order` does too, and keeps the order of keys in trees of JSON and TOML.
//!
//! # Limits
//!
//! A source of 4 GiB or more panics, unless it has neither `$` nor a backslash. If memory runs out, the
//! program is aborted.

#![warn(missing_docs)]
#![deny(unsafe_code)]

#[cfg(not(all(target_arch = "x86_64", target_os = "linux", target_pointer_width = "64")))]
compile_error!("subst: its library is for x86-64 Linux only");

pub mod error;
mod features;
mod forms;
mod library;
mod map;
mod template;

pub use error::Error;
#[cfg(feature = "json")]
pub use features::json;
#[cfg(feature = "toml")]
pub use features::toml;
#[cfg(feature = "yaml")]
pub use features::yaml;
#[cfg(unix)]
pub use map::EnvBytes;
pub use map::{Env, NeverValue, NoSubstitution, VariableMap};
pub use template::{ByteTemplate, ByteTemplateBuf, Template, TemplateBuf};

/// Expands a text with the values of variables.
///
/// ```
/// use std::collections::HashMap;
///
/// let variables = HashMap::from([("name".to_owned(), "world".to_owned())]);
/// assert_eq!(subst::substitute("Hello ${name:nobody}!", &variables)?, "Hello world!");
/// # Ok::<(), subst::Error>(())
/// ```
///
/// # Errors
///
/// The first fault of the source, or else the first needed variable that is unset and has no default.
///
/// # Panics
///
/// If the source has 4 GiB or more, and a `$` or a backslash.
pub fn substitute<'a, M>(source: &str, variables: &'a M) -> Result<String, Error>
where
    M: VariableMap<'a> + ?Sized,
    M::Value: AsRef<str>,
{
    if is_plain(source.as_bytes()) {
        return Ok(source.to_owned());
    }
    Ok(Template::from_str(source)?.expand(variables)?)
}

/// Expands bytes with the values of variables. They need not be UTF-8.
///
/// ```
/// use std::collections::BTreeMap;
///
/// let variables = BTreeMap::from([("name", b"w\xF6rld")]);
/// assert_eq!(subst::substitute_bytes(b"Hello $name!", &variables)?, b"Hello w\xF6rld!");
/// # Ok::<(), subst::Error>(())
/// ```
///
/// # Errors
///
/// The first fault of the source, or else the first needed variable that is unset and has no default.
///
/// # Panics
///
/// If the source has 4 GiB or more, and a `$` or a backslash.
pub fn substitute_bytes<'a, M>(source: &[u8], variables: &'a M) -> Result<Vec<u8>, Error>
where
    M: VariableMap<'a> + ?Sized,
    M::Value: AsRef<[u8]>,
{
    if is_plain(source) {
        return Ok(source.to_owned());
    }
    Ok(ByteTemplate::from_slice(source)?.expand(variables)?)
}

/// Returns whether a source has neither `$` nor a backslash, so that it expands to itself.
fn is_plain(source: &[u8]) -> bool {
    memchr::memchr2(b'$', b'\\', source).is_none()
}
