//! Messages of errors.

use super::{
    CharOrByte, Error, ExpandError, InvalidEscapeSequence, MissingClosingBrace, MissingVariableName,
    NoSuchVariable, ParseError, UnexpectedCharacter,
};
use std::fmt::{Display, Formatter, Result};

impl Display for CharOrByte {
    fn fmt(&self, f: &mut Formatter<'_>) -> Result {
        match *self {
            CharOrByte::Char(c) => write!(f, "{c}"),
            CharOrByte::Byte(b) if b.is_ascii() => write!(f, "{}", char::from(b)),
            CharOrByte::Byte(b) => write!(f, "0x{b:02X}"),
        }
    }
}

/// A character that displays in single quotes.
struct Quoted(CharOrByte);

impl Display for Quoted {
    fn fmt(&self, f: &mut Formatter<'_>) -> Result {
        match self.0 {
            CharOrByte::Char(c) => write!(f, "{c:?}"),
            CharOrByte::Byte(b) if b.is_ascii() => write!(f, "{:?}", char::from(b)),
            CharOrByte::Byte(b) => write!(f, "'\\x{b:02X}'"),
        }
    }
}

impl CharOrByte {
    /// Returns the character in single quotes, for display.
    ///
    /// It is escaped if it isn't printable. A byte that isn't ASCII displays as its hexadecimal value, like
    /// `'\x81'`.
    pub fn quoted_printable(&self) -> impl Display {
        Quoted(*self)
    }
}

impl Display for InvalidEscapeSequence {
    fn fmt(&self, f: &mut Formatter<'_>) -> Result {
        match self.character {
            Some(c) => write!(f, "Invalid escape sequence: \\{c}"),
            None => f.write_str("Invalid escape sequence: missing escape character"),
        }
    }
}

impl Display for MissingVariableName {
    fn fmt(&self, f: &mut Formatter<'_>) -> Result {
        f.write_str("Missing variable name")
    }
}

impl Display for UnexpectedCharacter {
    fn fmt(&self, f: &mut Formatter<'_>) -> Result {
        let (character, expected) = (self.character.quoted_printable(), self.expected.message());
        write!(f, "Unexpected character: {character}, expected {expected}")
    }
}

impl Display for MissingClosingBrace {
    fn fmt(&self, f: &mut Formatter<'_>) -> Result {
        f.write_str("Missing closing brace")
    }
}

impl Display for NoSuchVariable {
    fn fmt(&self, f: &mut Formatter<'_>) -> Result {
        write!(f, "No such variable: ${}", self.name)
    }
}

impl Display for Error {
    fn fmt(&self, f: &mut Formatter<'_>) -> Result {
        match self {
            Error::InvalidEscapeSequence(e) => e.fmt(f),
            Error::MissingVariableName(e) => e.fmt(f),
            Error::UnexpectedCharacter(e) => e.fmt(f),
            Error::MissingClosingBrace(e) => e.fmt(f),
            Error::NoSuchVariable(e) => e.fmt(f),
        }
    }
}

impl Display for ParseError {
    fn fmt(&self, f: &mut Formatter<'_>) -> Result {
        match self {
            ParseError::InvalidEscapeSequence(e) => e.fmt(f),
            ParseError::MissingVariableName(e) => e.fmt(f),
            ParseError::UnexpectedCharacter(e) => e.fmt(f),
            ParseError::MissingClosingBrace(e) => e.fmt(f),
        }
    }
}

impl Display for ExpandError {
    fn fmt(&self, f: &mut Formatter<'_>) -> Result {
        match self {
            ExpandError::NoSuchVariable(e) => e.fmt(f),
        }
    }
}
