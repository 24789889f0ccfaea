//! Documents, each in a module with a feature of its name.

#[cfg(feature = "json")]
pub mod json;
#[cfg(feature = "toml")]
pub mod toml;
#[cfg(feature = "yaml")]
pub mod yaml;

/// Expands a string of a document in place. One without `$` and `\` stays as it is.
#[cfg(any(feature = "json", feature = "toml", feature = "yaml"))]
fn expand_in_place<'a, M>(string: &mut String, variables: &'a M) -> Result<(), crate::Error>
where
    M: crate::VariableMap<'a> + ?Sized,
    M::Value: AsRef<str>,
{
    if !crate::is_plain(string.as_bytes()) {
        *string = crate::substitute(string, variables)?;
    }
    Ok(())
}
