//! The rows of `crates/subst_vectors/data`, whose README.md has their form.
#![allow(dead_code)]

use std::collections::BTreeMap;
use std::path::Path;
use subst::error::CharOrByte;
use subst::Error;

/// A row: its text, its kind, its source, its variables, and the columns of its answer.
pub struct Row {
    pub line: String,
    pub kind: String,
    pub source: Vec<u8>,
    pub variables: BTreeMap<String, Vec<u8>>,
    pub answer: Vec<String>,
}

/// Returns the rows of a file that are of these kinds, and that have `${name?` or don't.
pub fn rows(file: &str, kinds: &[&str], has_optional: bool) -> Vec<Row> {
    let path = Path::new(env!("CARGO_MANIFEST_DIR"))
        .join("../crates/subst_vectors/data")
        .join(file);
    let text = std::fs::read_to_string(&path).unwrap_or_else(|e| panic!("{}: {e}", path.display()));
    let rows = text
        .lines()
        .filter(|line| !line.is_empty() && !line.starts_with('#'))
        .map(row);
    rows.filter(|row| kinds.contains(&&*row.kind) && is_optional(&row.source) == has_optional)
        .collect()
}

fn row(line: &str) -> Row {
    let mut columns = line.split('\t').map(str::to_owned);
    let mut next = || columns.next().expect("a row has three columns and an answer");
    let (kind, source, pairs) = (next(), decode(&next()), next());
    Row {
        line: line.to_owned(),
        kind,
        source,
        variables: pairs_of(&pairs),
        answer: columns.collect(),
    }
}

fn pairs_of(column: &str) -> BTreeMap<String, Vec<u8>> {
    let pairs = column
        .split(',')
        .filter(|_| column != "-")
        .map(|pair| pair.split_once('=').unwrap());
    pairs
        .map(|(name, value)| (String::from_utf8(decode(name)).unwrap(), decode(value)))
        .collect()
}

/// Returns whether a source has `${`, a name and a question mark.
fn is_optional(source: &[u8]) -> bool {
    let is_name = |byte: &&u8| byte.is_ascii_alphanumeric() || **byte == b'_';
    (0..source.len())
        .filter(|&at| source[at..].starts_with(b"${"))
        .any(|at| {
            let length = source[at + 2..].iter().take_while(is_name).count();
            length > 0 && source.get(at + 2 + length) == Some(&b'?')
        })
}

/// Returns the bytes of a column.
pub fn decode(column: &str) -> Vec<u8> {
    let mut parts = column.split('%');
    let mut bytes = parts.next().unwrap().as_bytes().to_vec();
    for part in parts {
        bytes.push(u8::from_str_radix(&part[..2], 16).unwrap());
        bytes.extend(&part.as_bytes()[2..]);
    }
    if column == "-" {
        bytes.clear();
    }
    bytes
}

/// Returns the column of bytes, with bytes below 0x20, 0x7F, those that aren't UTF-8 and `%` escaped.
pub fn encode(mut bytes: &[u8]) -> String {
    if bytes.is_empty() || bytes == b"-" {
        return if bytes.is_empty() { "-" } else { "%2D" }.to_owned();
    }
    let mut column = String::new();
    while !bytes.is_empty() {
        let (valid, length) = match std::str::from_utf8(bytes) {
            Ok(text) => (text, text.len()),
            Err(e) => (
                std::str::from_utf8(&bytes[..e.valid_up_to()]).unwrap(),
                e.valid_up_to(),
            ),
        };
        for c in valid.chars() {
            match c {
                '\0'..='\x1f' | '\x7f' | '%' => column += &format!("%{:02X}", c as u32),
                _ => column.push(c),
            }
        }
        if let Some(byte) = bytes.get(length) {
            column += &format!("%{byte:02X}");
        }
        bytes = bytes.get(length + 1..).unwrap_or(&[]);
    }
    column
}

/// Returns the columns of an error of a source, which has no columns of a line if it isn't a text.
pub fn fault(error: &Error, source: Option<&str>) -> Vec<String> {
    let (case, position, detail) = match error {
        Error::InvalidEscapeSequence(e) => (
            "InvalidEscapeSequence",
            e.position,
            e.character.map_or("none".to_owned(), character),
        ),
        Error::MissingVariableName(e) => ("MissingVariableName", e.position, e.len.to_string()),
        Error::UnexpectedCharacter(e) => ("UnexpectedCharacter", e.position, character(e.character)),
        Error::MissingClosingBrace(e) => ("MissingClosingBrace", e.position, "-".to_owned()),
        Error::NoSuchVariable(e) => ("NoSuchVariable", e.position, encode(e.name.as_bytes())),
    };
    let expected = match error {
        Error::UnexpectedCharacter(e) => encode(e.expected.message().as_bytes()),
        _ => "-".to_owned(),
    };
    let line = |source| {
        [
            shown(error.source_line(source)),
            shown(&error.source_highlighting(source)),
        ]
    };
    let [line, highlighting] = source.map_or([".".to_owned(), ".".to_owned()], line);
    let display = encode(error.to_string().as_bytes());
    let (position, range) = (position.to_string(), format!("{:?}", error.source_range()));
    let columns = [
        case,
        &position,
        &detail,
        &expected,
        &display,
        &range,
        &line,
        &highlighting,
    ];
    columns.map(str::to_owned).to_vec()
}

/// Returns the column of a line or of highlighting, in which a dot alone would mean that there is none.
fn shown(text: &str) -> String {
    match text {
        "." => "%2E".to_owned(),
        _ => encode(text.as_bytes()),
    }
}

fn character(character: CharOrByte) -> String {
    match character {
        CharOrByte::Char(c) => format!("c{:X}", c as u32),
        CharOrByte::Byte(b) => format!("b{b:02X}"),
    }
}

/// Returns the columns of a row's fault with the message of the Rust crate for an unexpected character.
pub fn wanted(row: &Row) -> Vec<String> {
    let ours = "a closing brace ('}'), colon (':') or question mark ('?')";
    row.answer
        .iter()
        .map(|column| column.replace(ours, "a closing brace ('}') or colon (':')"))
        .collect()
}
