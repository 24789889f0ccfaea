//! Templates: sources that are parsed once, and expanded often.

use crate::error::{ExpandError, ParseError};
use crate::library::{expand, expand_text, Owned, Parsed};
use crate::VariableMap;
use std::fmt;

/// A parsed text, which is borrowed.
///
/// Expanding a template is faster than [`substitute`](crate::substitute), which parses its source each time.
///
/// ```
/// use std::collections::BTreeMap;
///
/// let template = subst::Template::from_str("Hello ${name:nobody}!")?;
/// let variables = BTreeMap::from([("name", "world")]);
/// assert_eq!(template.expand(&variables)?, "Hello world!");
/// assert_eq!(template.expand(&subst::NoSubstitution)?, "Hello nobody!");
/// # Ok::<(), subst::Error>(())
/// ```
#[derive(Clone)]
pub struct Template<'a> {
    parsed: Parsed<'a, str>,
}

/// A parsed text with its source.
///
/// ```
/// let template = subst::TemplateBuf::from_string("Hello ${name:nobody}!".to_owned())?;
/// assert_eq!(template.expand(&subst::NoSubstitution)?, "Hello nobody!");
/// # Ok::<(), subst::Error>(())
/// ```
pub struct TemplateBuf {
    owned: Owned<String, Template<'static>>,
}

/// Parsed bytes, which are borrowed. They need not be UTF-8.
///
/// ```
/// let template = subst::ByteTemplate::from_slice(b"\xFF ${name:nobody}")?;
/// assert_eq!(template.expand(&subst::NoSubstitution)?, b"\xFF nobody");
/// # Ok::<(), subst::Error>(())
/// ```
#[derive(Clone)]
pub struct ByteTemplate<'a> {
    parsed: Parsed<'a, [u8]>,
}

/// Parsed bytes with their source.
pub struct ByteTemplateBuf {
    owned: Owned<Vec<u8>, ByteTemplate<'static>>,
}

impl<'a> Template<'a> {
    /// Parses a source.
    ///
    /// # Errors
    ///
    /// The first fault of the source.
    ///
    /// # Panics
    ///
    /// If the source has 4 GiB or more.
    #[allow(clippy::should_implement_trait)]
    pub fn from_str(source: &'a str) -> Result<Self, ParseError> {
        match Parsed::parse(source) {
            Ok(parsed) => Ok(Template { parsed }),
            Err(fault) => Err(ParseError::of_fault(fault, source.as_bytes())),
        }
    }

    /// Returns the source.
    pub fn source(&self) -> &str {
        self.parsed.source()
    }

    /// Expands the template with the values of `variables`.
    ///
    /// # Errors
    ///
    /// The first needed variable that is unset and has no default.
    pub fn expand<'b, M>(&self, variables: &'b M) -> Result<String, ExpandError>
    where
        M: VariableMap<'b> + ?Sized,
        M::Value: AsRef<str>,
    {
        let output = expand_text(&self.parsed, |name| variables.get(name));
        output.map_err(|fault| ExpandError::of_fault(fault, self.source().as_bytes()))
    }
}

impl TemplateBuf {
    /// Parses a source.
    ///
    /// # Errors
    ///
    /// The first fault of the source.
    ///
    /// # Panics
    ///
    /// If the source has 4 GiB or more.
    pub fn from_string(source: String) -> Result<Self, ParseError> {
        match Owned::<String, _>::parse(source) {
            Ok(owned) => Ok(TemplateBuf { owned }),
            Err((fault, source)) => Err(ParseError::of_fault(fault, source.as_bytes())),
        }
    }

    /// Returns the source.
    pub fn into_source(self) -> String {
        self.owned.into_source()
    }

    /// Returns the borrowed template.
    pub fn as_template(&self) -> &Template<'_> {
        self.owned.template()
    }

    /// Expands the template, as [`Template::expand`] does.
    ///
    /// # Errors
    ///
    /// The first needed variable that is unset and has no default.
    pub fn expand<'b, M>(&self, variables: &'b M) -> Result<String, ExpandError>
    where
        M: VariableMap<'b> + ?Sized,
        M::Value: AsRef<str>,
    {
        self.as_template().expand(variables)
    }
}

impl<'a> ByteTemplate<'a> {
    /// Parses a source.
    ///
    /// # Errors
    ///
    /// The first fault of the source.
    ///
    /// # Panics
    ///
    /// If the source has 4 GiB or more.
    pub fn from_slice(source: &'a [u8]) -> Result<Self, ParseError> {
        match Parsed::parse(source) {
            Ok(parsed) => Ok(ByteTemplate { parsed }),
            Err(fault) => Err(ParseError::of_fault(fault, source)),
        }
    }

    /// Returns the source.
    pub fn source(&self) -> &[u8] {
        self.parsed.source()
    }

    /// Expands the template with the values of `variables`.
    ///
    /// # Errors
    ///
    /// The first needed variable that is unset and has no default.
    pub fn expand<'b, M>(&self, variables: &'b M) -> Result<Vec<u8>, ExpandError>
    where
        M: VariableMap<'b> + ?Sized,
        M::Value: AsRef<[u8]>,
    {
        let output = expand(&self.parsed, |name| variables.get(name));
        output.map_err(|fault| ExpandError::of_fault(fault, self.source()))
    }
}

impl ByteTemplateBuf {
    /// Parses a source.
    ///
    /// # Errors
    ///
    /// The first fault of the source.
    ///
    /// # Panics
    ///
    /// If the source has 4 GiB or more.
    pub fn from_vec(source: Vec<u8>) -> Result<Self, ParseError> {
        match Owned::<Vec<u8>, _>::parse(source) {
            Ok(owned) => Ok(ByteTemplateBuf { owned }),
            Err((fault, source)) => Err(ParseError::of_fault(fault, &source)),
        }
    }

    /// Returns the source.
    pub fn into_source(self) -> Vec<u8> {
        self.owned.into_source()
    }

    /// Returns the borrowed template.
    pub fn as_template(&self) -> &ByteTemplate<'_> {
        self.owned.template()
    }

    /// Expands the template, as [`ByteTemplate::expand`] does.
    ///
    /// # Errors
    ///
    /// The first needed variable that is unset and has no default.
    pub fn expand<'b, M>(&self, variables: &'b M) -> Result<Vec<u8>, ExpandError>
    where
        M: VariableMap<'b> + ?Sized,
        M::Value: AsRef<[u8]>,
    {
        self.as_template().expand(variables)
    }
}

/// Implements the conversions of a borrowed template and of the one with its source into each other.
macro_rules! conversions {
    ($borrowed:ident, $owned:ident, $source:ty) => {
        impl<'a> From<Parsed<'a, $source>> for $borrowed<'a> {
            fn from(parsed: Parsed<'a, $source>) -> Self {
                $borrowed { parsed }
            }
        }

        impl<'a> From<&'a $owned> for $borrowed<'a> {
            fn from(template: &'a $owned) -> Self {
                template.as_template().clone()
            }
        }

        impl From<$borrowed<'_>> for $owned {
            fn from(template: $borrowed<'_>) -> Self {
                $owned {
                    owned: Owned::of_parsed(template.parsed),
                }
            }
        }

        impl From<&$borrowed<'_>> for $owned {
            fn from(template: &$borrowed<'_>) -> Self {
                $owned::from(template.clone())
            }
        }

        impl Clone for $owned {
            fn clone(&self) -> Self {
                $owned::from(self.as_template())
            }
        }
    };
}

conversions!(Template, TemplateBuf, str);
conversions!(ByteTemplate, ByteTemplateBuf, [u8]);

impl fmt::Debug for Template<'_> {
    fn fmt(&self, f: &mut fmt::Formatter<'_>) -> fmt::Result {
        f.debug_tuple("Template").field(&self.source()).finish()
    }
}

impl fmt::Debug for TemplateBuf {
    fn fmt(&self, f: &mut fmt::Formatter<'_>) -> fmt::Result {
        f.debug_tuple("TemplateBuf")
            .field(&self.as_template().source())
            .finish()
    }
}

impl fmt::Debug for ByteTemplate<'_> {
    fn fmt(&self, f: &mut fmt::Formatter<'_>) -> fmt::Result {
        write_bytes(f, "ByteTemplate", self.source())
    }
}

impl fmt::Debug for ByteTemplateBuf {
    fn fmt(&self, f: &mut fmt::Formatter<'_>) -> fmt::Result {
        write_bytes(f, "ByteTemplateBuf", self.as_template().source())
    }
}

/// Writes the name of a type and a source: as a byte string if it is UTF-8, or as a list of bytes.
fn write_bytes(f: &mut fmt::Formatter<'_>, name: &str, source: &[u8]) -> fmt::Result {
    let mut tuple = f.debug_tuple(name);
    match std::str::from_utf8(source) {
        Ok(text) => tuple.field(&format_args!("b{text:?}")).finish(),
        Err(_) => tuple.field(&source).finish(),
    }
}
