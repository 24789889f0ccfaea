//! The line of an error in its source.

use super::Error;
use std::fmt::{Result, Write};
use unicode_width::UnicodeWidthStr;

/// The width of the widest line that is shown, in columns.
const WIDEST: usize = 60;

impl Error {
    /// Returns the line of `source` in which the error's range begins, without its line end. A line ends at a
    /// line feed or a carriage return.
    ///
    /// The source must be the one that was refused. For another one, the line may be any.
    pub fn source_line<'a>(&self, source: &'a str) -> &'a str {
        let (before, after) = around(source, self.source_range().start);
        &source[source.len() - after.len() - before.len()..][..before.len() + line_len(after)]
    }

    /// Writes the error's line of `source`, with the error's range underlined by carets:
    ///
    /// ```text
    ///   Hello $name!
    ///          ^^^^
    /// ```
    ///
    /// Both lines end in a line feed and are indented by two spaces. If the range goes on past the end of the
    /// line, the carets stop there. Nothing is written if the line is wider than 60 columns.
    ///
    /// The source must be the one that was refused. For another one, the line may be any.
    ///
    /// # Errors
    ///
    /// If the writer fails.
    pub fn write_source_highlighting(&self, f: &mut impl Write, source: &str) -> Result {
        let line = self.source_line(source);
        if width(line) > WIDEST {
            return Ok(());
        }
        let range = self.source_range();
        let (before, after) = around(source, range.start);
        let end = floor(after, (range.end - range.start).min(line_len(after)));
        let (spaces, carets) = (width(before), width(&after[..end]));
        writeln!(f, "  {line}\n  {:spaces$}{:^<carets$}", "", "")
    }

    /// Returns the error's line of `source`, with the error's range underlined, as
    /// [`Error::write_source_highlighting`] writes it.
    ///
    /// ```
    /// let source = "Hello $name!";
    /// let error = subst::substitute(source, &subst::NoSubstitution).unwrap_err();
    /// assert_eq!(error.source_highlighting(source), "  Hello $name!\n         ^^^^\n");
    /// ```
    pub fn source_highlighting(&self, source: &str) -> String {
        let mut output = String::new();
        self.write_source_highlighting(&mut output, source)
            .expect("a String takes all texts");
        output
    }
}

/// Returns the part of the line before an offset, and all of the source after the offset.
fn around(source: &str, offset: usize) -> (&str, &str) {
    let (before, after) = source.split_at(floor(source, offset));
    let start = before.rfind(is_line_end).map_or(0, |end| end + 1);
    (&before[start..], after)
}

/// Returns the length of the first line.
fn line_len(text: &str) -> usize {
    text.find(is_line_end).unwrap_or(text.len())
}

fn is_line_end(c: char) -> bool {
    c == '\n' || c == '\r'
}

/// Returns the last boundary of a character that isn't past an offset.
fn floor(text: &str, offset: usize) -> usize {
    (0..=offset.min(text.len()))
        .rev()
        .find(|&at| text.is_char_boundary(at))
        .unwrap_or(0)
}

/// Returns the width of a text in columns. A control character has one column, which releases of
/// `unicode_width` count differently.
fn width(text: &str) -> usize {
    let controls = text.matches(char::is_control).count();
    controls
        + text
            .split(char::is_control)
            .map(UnicodeWidthStr::width)
            .sum::<usize>()
}
