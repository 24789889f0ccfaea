//! The stored answers to byte strings and texts, of each call.

mod common;

use common::{encode, fault, rows, wanted, Row};
use std::collections::{BTreeMap, HashMap};
use subst::{ByteTemplate, ByteTemplateBuf, Error, Template, TemplateBuf};
use unicode_width::UnicodeWidthStr;

/// Returns the columns of an answer.
fn columns<T: AsRef<[u8]>>(answer: Result<T, Error>, source: &[u8]) -> Vec<String> {
    match answer {
        Ok(output) => vec!["ok".to_owned(), encode(output.as_ref())],
        Err(e) => {
            let mut columns = vec!["fault".to_owned()];
            columns.extend(fault(&e, std::str::from_utf8(source).ok()));
            columns
        }
    }
}

/// Fails unless an answer has the columns of a row, which may end early.
fn assert_answer<T: AsRef<[u8]>>(row: &Row, answer: Result<T, Error>) {
    let mut wanted = wanted(row);
    if row.source.windows(3).any(|bytes| bytes == "\u{200d}".as_bytes()) && !joins_characters() {
        wanted.truncate(HIGHLIGHTING);
    }
    let found = columns(answer, &row.source);
    assert_eq!(found[..wanted.len().min(found.len())], wanted[..], "{}", row.line);
}

/// The column of highlighting.
const HIGHLIGHTING: usize = 8;

/// Returns whether joined characters have the width of one, as later releases of `unicode_width` count them.
fn joins_characters() -> bool {
    "\u{1f469}\u{200d}\u{1f467}".width() == 2
}

fn expanded_bytes(row: &Row) -> Result<Vec<u8>, Error> {
    Ok(ByteTemplate::from_slice(&row.source)?.expand(&row.variables)?)
}

fn expanded_owned_bytes(row: &Row) -> Result<Vec<u8>, Error> {
    let template = ByteTemplateBuf::from_vec(row.source.clone())?;
    let variables: HashMap<_, _> = row
        .variables
        .iter()
        .map(|(name, value)| (&**name, value))
        .collect();
    Ok(template.expand(&variables)?)
}

fn expanded_text(source: &str, variables: &BTreeMap<String, String>) -> Result<String, Error> {
    Ok(Template::from_str(source)?.expand(variables)?)
}

fn expanded_owned_text(source: &str, variables: &HashMap<String, String>) -> Result<String, Error> {
    Ok(TemplateBuf::from_string(source.to_owned())?.expand(variables)?)
}

/// Returns the variables of a row as texts, or `None` if one isn't UTF-8.
fn texts(row: &Row) -> Option<BTreeMap<String, String>> {
    let text = |bytes: &Vec<u8>| String::from_utf8(bytes.clone()).ok();
    row.variables
        .iter()
        .map(|(name, value)| Some((name.clone(), text(value)?)))
        .collect()
}

fn assert_row(row: &Row) {
    assert_answer(row, subst::substitute_bytes(&row.source, &row.variables));
    assert_answer(row, expanded_bytes(row));
    assert_answer(row, expanded_owned_bytes(row));
    if let (Ok(source), Some(variables)) = (std::str::from_utf8(&row.source), texts(row)) {
        assert_answer(row, subst::substitute(source, &variables));
        assert_answer(row, expanded_text(source, &variables));
        assert_answer(row, expanded_owned_text(source, &variables.into_iter().collect()));
    }
}

#[test]
fn all_calls_return_the_stored_answers() {
    for file in ["answers.tsv", "rows.tsv"] {
        let rows = rows(file, &["bytes"], false);
        assert!(rows.len() > 250, "{file} has {} rows", rows.len());
        rows.iter().for_each(assert_row);
    }
}

/// Replaces each question mark by a slash, which no language expects after a name.
fn slashed(bytes: &[u8]) -> Vec<u8> {
    bytes
        .iter()
        .map(|&byte| if byte == b'?' { b'/' } else { byte })
        .collect()
}

#[test]
fn a_question_mark_after_a_name_is_unexpected() {
    let e = subst::substitute("${a?}", &subst::NoSubstitution).unwrap_err();
    assert_eq!(
        e.to_string(),
        "Unexpected character: '?', expected a closing brace ('}') or colon (':')"
    );
    assert_eq!(
        subst::substitute(r"\${a?}", &subst::NoSubstitution).unwrap(),
        "${a?}"
    );
    let rows = rows("answers.tsv", &["bytes"], true);
    assert!(rows.len() > 500);
    for row in rows {
        let variables: BTreeMap<_, _> = row
            .variables
            .iter()
            .map(|(name, value)| (&**name, slashed(value)))
            .collect();
        let found = columns(subst::substitute_bytes(&row.source, &row.variables), &row.source);
        let other = columns(
            subst::substitute_bytes(&slashed(&row.source), &variables),
            &row.source,
        );
        let found = found.join("\t").replace("c3F", "c2F").replace('?', "/");
        assert_eq!(found, other.join("\t").replace('?', "/"), "{}", row.line);
    }
}
