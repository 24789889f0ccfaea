//! Documents: the stored answers, types that are read, and errors.
#![cfg(all(feature = "json", feature = "toml", feature = "yaml"))]

mod common;

use common::{encode, fault, rows, wanted, Row};
use serde::Deserialize;
use serde_json::{json, Value};
use std::collections::BTreeMap;
use subst::{NoSubstitution, VariableMap};

#[derive(Debug, Deserialize, PartialEq)]
struct Pair {
    bar: String,
    baz: String,
}

fn pair(first: &str, second: &str) -> Pair {
    Pair {
        bar: first.to_owned(),
        baz: second.to_owned(),
    }
}

/// Returns the pair that each format reads from a document with these two values.
fn read(
    first: &str,
    second: &str,
    map: &dyn for<'a> VariableMap<'a, Value = String>,
) -> [Result<Pair, String>; 3] {
    let json = json!({ "bar": first, "baz": second }).to_string();
    let toml = format!("bar = {}\nbaz = {}\n", json!(first), json!(second));
    let yaml = format!("bar: {}\nbaz: {}\n", json!(first), json!(second));
    let results = [
        subst::json::from_str(&json, map).map_err(|e| e.to_string()),
        subst::toml::from_str(&toml, map).map_err(|e| e.to_string()),
        subst::yaml::from_str(&yaml, map).map_err(|e| e.to_string()),
    ];
    let of_bytes = [
        subst::json::from_slice(json.as_bytes(), map).map_err(|e| e.to_string()),
        subst::toml::from_slice(toml.as_bytes(), map).map_err(|e| e.to_string()),
        subst::yaml::from_slice(yaml.as_bytes(), map).map_err(|e| e.to_string()),
    ];
    assert_eq!(results, of_bytes);
    results
}

/// A map of two names to texts.
struct Two(&'static str, &'static str);

impl VariableMap<'_> for Two {
    type Value = String;

    fn get(&self, key: &str) -> Option<String> {
        let value = [("bar", self.0), ("baz", self.1)]
            .into_iter()
            .find(|(name, _)| *name == key);
        value.map(|(_, value)| value.to_owned())
    }
}

#[test]
fn types_are_read() {
    let wanted = [(); 3].map(|()| Ok(pair("aap", "noot/with/stuff")));
    assert_eq!(read("$bar", "$baz/with/stuff", &Two("aap", "noot")), wanted);
    assert_eq!(read("aap", "noot/with/stuff", &Two("", "")), wanted);
    let missing = [(); 3].map(|()| Err("No such variable: $bat".to_owned()));
    assert_eq!(read("$bar", "$bat", &Two("", "")), missing);
}

#[test]
fn no_value_is_read_as_a_document() {
    let value = "aap\nbaz = \"mies\"\nbaz: mies\", \"baz\": \"mies";
    assert_eq!(
        read("$bar", "$baz", &Two(value, "$bar")),
        [(); 3].map(|()| Ok(pair(value, "$bar")))
    );
}

/// Fails unless a document of a pair, or of a tree, has an error of this case.
macro_rules! assert_refused {
    ($format:ident, $type:ty, $source:expr, $case:ident) => {{
        let result = subst::$format::from_slice::<$type, _>($source, &NoSubstitution);
        assert!(
            matches!(result, Err(subst::$format::Error::$case(_))),
            "{result:?}"
        );
    }};
}

#[test]
fn errors_have_their_cases() {
    assert_refused!(json, Pair, b"{", Json);
    assert_refused!(json, Pair, br#"{"bar": 1}"#, Json);
    assert_refused!(json, Value, b"\"\xFF\"", Json);
    assert_refused!(json, Value, br#"["$a"]"#, Subst);
    assert_refused!(toml, Pair, b"=", Toml);
    assert_refused!(toml, Pair, b"bar = 1", Toml);
    assert_refused!(toml, Pair, b"\xFF", InvalidUtf8);
    assert_refused!(toml, Value, b"a = '$'", Subst);
    assert_refused!(yaml, Pair, b"[", Yaml);
    assert_refused!(yaml, Pair, b"bar: 1", Yaml);
    assert_refused!(yaml, Value, b"- $a", Subst);
}

#[test]
fn only_string_values_change() {
    let map = BTreeMap::from([("a", "1")]);
    let mut json = json!({"$a": ["$a", 1, null, true, {"b": "${c:2}"}]});
    subst::json::substitute_string_values(&mut json, &map).unwrap();
    assert_eq!(json, json!({"$a": ["1", 1, null, true, {"b": "2"}]}));
    let mut toml: toml::Value =
        toml::from_str("'$a' = ['$a', {b = '${c:2}', d = 1}]\ne = 2020-01-01\n").unwrap();
    subst::toml::substitute_string_values(&mut toml, &map).unwrap();
    assert_eq!(
        toml,
        toml::from_str("'$a' = ['1', {b = '2', d = 1}]\ne = 2020-01-01\n").unwrap()
    );
    let mut yaml: serde_yaml::Value = serde_yaml::from_str("$a: [$a, {b: '${c:2}', d: 1}]\n").unwrap();
    subst::yaml::substitute_string_values(&mut yaml, &map).unwrap();
    assert_eq!(
        yaml,
        serde_yaml::from_str::<serde_yaml::Value>("$a: ['1', {b: '2', d: 1}]\n").unwrap()
    );
}

#[test]
fn strings_before_a_refused_one_stay_expanded() {
    let mut json = json!(["$a", "$b", "$a"]);
    assert!(subst::json::substitute_string_values(&mut json, &BTreeMap::from([("a", "1")])).is_err());
    assert_eq!(json, json!(["1", "$b", "$a"]));
}

/// Returns the columns of a tree, or of an error.
fn columns(answer: Result<Value, (&str, Option<subst::Error>)>) -> Vec<String> {
    match answer {
        Ok(tree) => vec!["ok".to_owned(), tree.to_string()],
        Err((_, Some(e))) => [vec!["fault".to_owned()], fault(&e, None)].concat(),
        Err((case, None)) => vec!["refused".to_owned(), case.to_owned()],
    }
}

fn json_answer(row: &Row, variables: &BTreeMap<String, String>) -> Vec<String> {
    columns(
        subst::json::from_slice::<Value, _>(&row.source, variables).map_err(|e| match e {
            subst::json::Error::Json(_) => ("Json", None),
            subst::json::Error::Subst(e) => ("", Some(e)),
        }),
    )
}

fn toml_answer(row: &Row, variables: &BTreeMap<String, String>) -> Vec<String> {
    let read = subst::toml::from_slice::<toml::Value, _>(&row.source, variables).map_err(|e| match e {
        subst::toml::Error::InvalidUtf8(_) => ("InvalidUtf8", None),
        subst::toml::Error::Toml(_) => ("Toml", None),
        subst::toml::Error::Subst(e) => ("", Some(e)),
    });
    // Reading a tree from a tree makes texts of dates in some releases of `toml`.
    let filled_in = read.map(|_| {
        let mut tree = toml::from_str(std::str::from_utf8(&row.source).unwrap()).unwrap();
        subst::toml::substitute_string_values(&mut tree, variables).unwrap();
        as_json(tree)
    });
    columns(filled_in)
}

/// Returns a tree of TOML in the form of a row. A date is a list.
fn as_json(value: toml::Value) -> Value {
    match value {
        toml::Value::String(text) => text.into(),
        toml::Value::Integer(number) => number.into(),
        toml::Value::Float(number) => number.into(),
        toml::Value::Boolean(flag) => flag.into(),
        toml::Value::Datetime(date) => json!(["date", null, date.to_string()]),
        toml::Value::Array(items) => items.into_iter().map(as_json).collect(),
        toml::Value::Table(map) => map.into_iter().map(|(key, item)| (key, as_json(item))).collect(),
    }
}

/// Fails unless an answer is that of a row. Trees are compared as trees. If keys keep their order, the first
/// refused string may be another one.
fn assert_answer(row: &Row, found: &[String]) {
    let wanted = wanted(row);
    match &*wanted[0] {
        "ok" => {
            let tree = |text: &[u8]| serde_json::from_slice::<Value>(text).unwrap();
            assert_eq!(found[0], "ok", "{}: {found:?}", row.line);
            assert_eq!(
                tree(found[1].as_bytes()),
                tree(&common::decode(&wanted[1])),
                "{}",
                row.line
            );
        }
        "fault" if cfg!(feature = "preserve-order") => assert_eq!(found[0], "fault", "{}", row.line),
        _ => assert_eq!(found[..wanted.len()], wanted[..], "{}", row.line),
    }
}

#[test]
fn trees_have_the_stored_answers() {
    let mut count = 0;
    for row in rows("answers.tsv", &["json", "toml"], false) {
        let texts = row
            .variables
            .iter()
            .map(|(name, value)| (name.clone(), String::from_utf8(value.clone()).unwrap()));
        let variables = texts.collect();
        let answer = if row.kind == "json" {
            json_answer
        } else {
            toml_answer
        };
        assert_answer(&row, &answer(&row, &variables));
        count += 1;
    }
    assert!(count > 700, "{count} rows");
    assert_eq!(encode(b"a%\n"), "a%25%0A");
}
