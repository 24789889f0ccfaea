//! Errors: a fault of a source, and where it is.
//!
//! Positions are byte offsets in the whole source, from 0, also inside defaults.

mod display;
mod highlighting;

use crate::library::Fault;
use std::ops::Range;

/// A character, or a byte at which no UTF-8 character begins.
#[derive(Clone, Copy, Debug, PartialEq, Eq)]
pub enum CharOrByte {
    /// A Unicode character.
    Char(char),
    /// A byte at which no UTF-8 character begins.
    Byte(u8),
}

impl CharOrByte {
    /// Returns the number of bytes of the character in a source: the length of its UTF-8 encoding, or 1 for a
    /// `Byte`.
    pub fn source_len(&self) -> usize {
        match self {
            CharOrByte::Char(c) => c.len_utf8(),
            CharOrByte::Byte(_) => 1,
        }
    }

    /// Returns the character at the front of bytes, or `None` if there is none.
    fn first_of(bytes: &[u8]) -> Option<CharOrByte> {
        let text = std::str::from_utf8(bytes)
            .ok()
            .and_then(|text| text.chars().next());
        text.map(CharOrByte::Char)
            .or_else(|| bytes.first().copied().map(CharOrByte::Byte))
    }
}

/// The characters expected instead of an unexpected one.
#[derive(Clone, Debug, PartialEq, Eq)]
pub struct ExpectedCharacter {
    message: &'static str,
}

impl ExpectedCharacter {
    /// Returns a message that names the expected characters.
    pub fn message(&self) -> &str {
        self.message
    }
}

/// A backslash before a character that can't be escaped, or at the end of the source.
#[derive(Clone, Debug, PartialEq, Eq)]
pub struct InvalidEscapeSequence {
    /// The byte offset of the backslash.
    pub position: usize,
    /// The character after the backslash, or `None` at the end of the source.
    pub character: Option<CharOrByte>,
}

/// A `$` or `${` without a name after it.
#[derive(Clone, Debug, PartialEq, Eq)]
pub struct MissingVariableName {
    /// The byte offset of the `$`.
    pub position: usize,
    /// The length in bytes: 1 for `$`, 2 for `${`.
    pub len: usize,
}

/// An unexpected character after the name of a placeholder in braces.
#[derive(Clone, Debug, PartialEq, Eq)]
pub struct UnexpectedCharacter {
    /// The byte offset of the character.
    pub position: usize,
    /// The unexpected character.
    pub character: CharOrByte,
    /// The characters expected instead.
    pub expected: ExpectedCharacter,
}

/// A placeholder without its closing brace.
#[derive(Clone, Debug, PartialEq, Eq)]
pub struct MissingClosingBrace {
    /// The byte offset of the opening brace.
    pub position: usize,
}

/// An unset variable without a default.
#[derive(Clone, Debug, PartialEq, Eq)]
pub struct NoSuchVariable {
    /// The byte offset of the name.
    pub position: usize,
    /// The name of the variable.
    pub name: String,
}

/// An error of parsing or expanding a source.
#[derive(Clone, Debug, PartialEq, Eq)]
pub enum Error {
    /// A backslash before a character that can't be escaped, or at the end of the source.
    InvalidEscapeSequence(InvalidEscapeSequence),
    /// A `$` or `${` without a name after it.
    MissingVariableName(MissingVariableName),
    /// An unexpected character after the name of a placeholder in braces.
    UnexpectedCharacter(UnexpectedCharacter),
    /// A placeholder without its closing brace.
    MissingClosingBrace(MissingClosingBrace),
    /// An unset variable without a default.
    NoSuchVariable(NoSuchVariable),
}

/// An error of parsing a template.
#[derive(Clone, Debug, PartialEq, Eq)]
pub enum ParseError {
    /// A backslash before a character that can't be escaped, or at the end of the source.
    InvalidEscapeSequence(InvalidEscapeSequence),
    /// A `$` or `${` without a name after it.
    MissingVariableName(MissingVariableName),
    /// An unexpected character after the name of a placeholder in braces.
    UnexpectedCharacter(UnexpectedCharacter),
    /// A placeholder without its closing brace.
    MissingClosingBrace(MissingClosingBrace),
}

/// An error of expanding a template.
#[derive(Clone, Debug, PartialEq, Eq)]
pub enum ExpandError {
    /// An unset variable without a default.
    NoSuchVariable(NoSuchVariable),
}

impl Error {
    /// Returns the error's range in the source, in byte offsets.
    ///
    /// It covers a backslash with the character after it, a `$` or `${`, an unexpected character, an opening
    /// brace, or a name.
    pub fn source_range(&self) -> Range<usize> {
        let (start, len) = match self {
            Error::InvalidEscapeSequence(e) => (e.position, 1 + e.character.map_or(0, |c| c.source_len())),
            Error::MissingVariableName(e) => (e.position, e.len),
            Error::UnexpectedCharacter(e) => (e.position, e.character.source_len()),
            Error::MissingClosingBrace(e) => (e.position, 1),
            Error::NoSuchVariable(e) => (e.position, e.name.len()),
        };
        start..start.saturating_add(len)
    }
}

impl ParseError {
    /// Converts a fault of a source.
    pub(crate) fn of_fault(fault: Fault, source: &[u8]) -> ParseError {
        let position = fault.position;
        let at_fault = &source[position..position + fault.length];
        match fault.kind {
            1 => ParseError::InvalidEscapeSequence(InvalidEscapeSequence {
                position,
                character: CharOrByte::first_of(&at_fault[1..]),
            }),
            2 => ParseError::MissingVariableName(MissingVariableName {
                position,
                len: fault.length,
            }),
            4 => ParseError::MissingClosingBrace(MissingClosingBrace { position }),
            // 3 or 8, without or with `SUBST_NO_OPTIONAL`
            _ => ParseError::UnexpectedCharacter(UnexpectedCharacter {
                position,
                character: CharOrByte::first_of(at_fault).expect("a character is at the fault"),
                expected: ExpectedCharacter {
                    message: "a closing brace ('}') or colon (':')",
                },
            }),
        }
    }
}

impl ExpandError {
    /// Converts the fault of a missing variable.
    pub(crate) fn of_fault(fault: Fault, source: &[u8]) -> ExpandError {
        let name = &source[fault.position..fault.position + fault.length];
        ExpandError::NoSuchVariable(NoSuchVariable {
            position: fault.position,
            name: String::from_utf8_lossy(name).into_owned(),
        })
    }
}

impl From<ParseError> for Error {
    fn from(error: ParseError) -> Error {
        match error {
            ParseError::InvalidEscapeSequence(e) => Error::InvalidEscapeSequence(e),
            ParseError::MissingVariableName(e) => Error::MissingVariableName(e),
            ParseError::UnexpectedCharacter(e) => Error::UnexpectedCharacter(e),
            ParseError::MissingClosingBrace(e) => Error::MissingClosingBrace(e),
        }
    }
}

impl From<ExpandError> for Error {
    fn from(error: ExpandError) -> Error {
        match error {
            ExpandError::NoSuchVariable(e) => Error::NoSuchVariable(e),
        }
    }
}

/// Implements the conversions of an error's struct into the enums that have it.
macro_rules! conversions {
    ($($error:ident: $($enum:ident)*;)*) => {
        $($(
            impl From<$error> for $enum {
                fn from(error: $error) -> $enum {
                    $enum::$error(error)
                }
            }
        )*)*
    };
}

conversions! {
    InvalidEscapeSequence: Error ParseError;
    MissingVariableName: Error ParseError;
    UnexpectedCharacter: Error ParseError;
    MissingClosingBrace: Error ParseError;
    NoSuchVariable: Error ExpandError;
}

/// Implements `std::error::Error`, without a source.
macro_rules! standard_errors {
    ($($error:ident)*) => {
        $(impl std::error::Error for $error {})*
    };
}

standard_errors! {
    Error ParseError ExpandError
    InvalidEscapeSequence MissingVariableName UnexpectedCharacter MissingClosingBrace NoSuchVariable
}
