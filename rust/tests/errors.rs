//! Errors: their messages, their ranges, their lines, and conversions.

use std::error::Error as _;
use std::fmt::Write;
use subst::error::{
    CharOrByte, Error, ExpandError, InvalidEscapeSequence, MissingClosingBrace, MissingVariableName,
    NoSuchVariable, ParseError, UnexpectedCharacter,
};
use subst::NoSubstitution;

fn error_of(source: &str) -> Error {
    subst::substitute(source, &NoSubstitution).unwrap_err()
}

/// Sources with their messages, and how many spaces and carets are below them.
const SHOWN: [(&str, &str, usize, usize); 15] = [
    (r"Hello \world!", r"Invalid escape sequence: \w", 8, 2),
    ("Hello \\❤❤", "Invalid escape sequence: \\❤", 8, 2),
    (
        r"Hello world!\",
        "Invalid escape sequence: missing escape character",
        14,
        1,
    ),
    ("Hello $!", "Missing variable name", 8, 1),
    ("Hello ${}!", "Missing variable name", 8, 2),
    ("Hello ${:fallback}!", "Missing variable name", 8, 2),
    ("Hello \u{3000}$❤", "Missing variable name", 10, 1),
    ("Hello \u{3000}$", "Missing variable name", 10, 1),
    (
        "Hello ${name)!",
        "Unexpected character: ')', expected a closing brace ('}') or colon (':')",
        14,
        1,
    ),
    (
        "Hello ${name❤",
        "Unexpected character: '❤', expected a closing brace ('}') or colon (':')",
        14,
        1,
    ),
    ("Hello ${name", "Missing closing brace", 9, 1),
    ("Hello ${name:fallback", "Missing closing brace", 9, 1),
    ("Hello ${name}!", "No such variable: $name", 10, 4),
    ("Hello $name!", "No such variable: $name", 9, 4),
    (
        "emoticon: \\\u{ff08} ^▽^ \u{ff09}/",
        "Invalid escape sequence: \\\u{ff08}",
        12,
        3,
    ),
];

#[test]
fn errors_are_shown_word_for_word() {
    for (source, message, spaces, carets) in SHOWN {
        let e = error_of(source);
        assert_eq!(e.to_string(), message);
        assert_eq!(e.source_line(source), source);
        let shown = format!("  {source}\n{}{}\n", " ".repeat(spaces), "^".repeat(carets));
        assert_eq!(e.source_highlighting(source), shown);
        let mut written = String::new();
        e.write_source_highlighting(&mut written, source).unwrap();
        assert_eq!(written, shown);
    }
}

#[test]
fn highlighting_is_counted_from_the_start_of_its_line() {
    let shown = |source: &str| error_of(source).source_highlighting(source);
    assert_eq!(shown("first line\nsecond $\n"), "  second $\n         ^\n");
    assert_eq!(shown("a\r\n$"), "  $\n  ^\n");
    assert_eq!(shown("\\\r\n"), "  \\\n  ^\n");
    assert_eq!(shown("a\t$"), "  a\t$\n    ^\n");
    assert_eq!(
        shown(&format!("{}$", "\u{3000}".repeat(29)))
            .trim_start_matches("  \u{3000}")
            .len(),
        28 * 3 + 64
    );
    assert_eq!(shown(&format!("{}$", "\u{3000}".repeat(30))), "");
}

#[test]
fn ranges_made_by_hand_are_cut_at_the_line() {
    let shown = |e: Error, source| (e.source_line(source).to_owned(), e.source_highlighting(source));
    let long = Error::from(MissingVariableName { position: 1, len: 4 });
    assert_eq!(
        shown(long, "ab\ncd"),
        ("ab".to_owned(), "  ab\n   ^\n".to_owned())
    );
    let at_end = Error::from(MissingClosingBrace { position: 2 });
    assert_eq!(
        shown(at_end, "ab\ncd"),
        ("ab".to_owned(), "  ab\n    \n".to_owned())
    );
}

#[test]
fn errors_of_another_source_do_not_panic() {
    let huge = MissingVariableName {
        position: usize::MAX,
        len: 9,
    };
    let inside = MissingVariableName { position: 1, len: 1 };
    for e in [Error::from(huge), Error::from(inside)] {
        for source in ["", "❤", "❤\n❤", "a"] {
            let _ = (
                e.source_range(),
                e.source_line(source),
                e.source_highlighting(source),
            );
        }
    }
}

#[test]
fn a_writer_that_fails_is_reported() {
    struct Full;
    impl Write for Full {
        fn write_str(&mut self, _: &str) -> std::fmt::Result {
            Err(std::fmt::Error)
        }
    }
    assert!(error_of("$").write_source_highlighting(&mut Full, "$").is_err());
}

#[test]
fn characters_are_quoted() {
    let quoted = |c: CharOrByte| c.quoted_printable().to_string();
    for (byte, text) in [
        (0, r"'\0'"),
        (9, r"'\t'"),
        (1, r"'\u{1}'"),
        (0x27, r"'\''"),
        (0x79, "'y'"),
        (0x7F, r"'\u{7f}'"),
    ] {
        assert_eq!(quoted(CharOrByte::Byte(byte)), text);
        assert_eq!(quoted(CharOrByte::Char(byte.into())), text);
    }
    assert_eq!(quoted(CharOrByte::Byte(0x81)), r"'\x81'");
    assert_eq!(quoted(CharOrByte::Char('"')), r#"'"'"#);
    assert_eq!(CharOrByte::Byte(0xE2).to_string(), "0xE2");
    assert_eq!(CharOrByte::Byte(b'y').to_string(), "y");
    assert_eq!(CharOrByte::Char('❤').to_string(), "❤");
    assert_eq!(
        [
            CharOrByte::Char('❤').source_len(),
            CharOrByte::Byte(0xE2).source_len()
        ],
        [3, 1]
    );
}

#[test]
fn errors_convert() {
    let position = 1;
    let missing = NoSuchVariable {
        position,
        name: "a".to_owned(),
    };
    assert_eq!(
        Error::from(ExpandError::from(missing.clone())),
        Error::NoSuchVariable(missing)
    );
    let brace = MissingClosingBrace { position };
    assert_eq!(
        Error::from(ParseError::from(brace.clone())),
        Error::MissingClosingBrace(brace)
    );
    let escape = InvalidEscapeSequence {
        position,
        character: None,
    };
    let error = ParseError::from(escape.clone());
    assert_eq!(error.to_string(), escape.to_string());
    assert_eq!(Error::from(error), Error::from(escape));
    assert!(error_of("$").source().is_none());
}

#[test]
fn an_unexpected_character_has_all_fields() {
    match error_of("${a!}") {
        Error::UnexpectedCharacter(UnexpectedCharacter {
            position,
            character,
            expected,
        }) => {
            assert_eq!((position, character), (3, CharOrByte::Char('!')));
            assert_eq!(expected.message(), "a closing brace ('}') or colon (':')");
        }
        e => panic!("{e:?}"),
    }
}
