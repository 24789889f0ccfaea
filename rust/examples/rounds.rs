//! Parses or expands a source many times, to count instructions.
//!
//! `rounds parse|expand|both INPUT ROUNDS` reads `INPUT.src`, and lines `NAME=VALUE` of `INPUT.vars`.

use std::collections::BTreeMap;
use subst::ByteTemplate;

/// Returns a value, which the compiler can't remove.
#[inline(never)]
fn black_box<T>(value: T) -> T {
    value
}

fn main() -> Result<(), Box<dyn std::error::Error>> {
    let arguments: Vec<String> = std::env::args().collect();
    let (action, input, rounds) = match &arguments[..] {
        [_, action, input, rounds] => (action, input, rounds),
        _ => return Err("three arguments are needed".into()),
    };
    let source = std::fs::read(format!("{input}.src"))?;
    let lines = std::fs::read_to_string(format!("{input}.vars"))?;
    let pairs = lines.lines().filter_map(|line| line.split_once('='));
    let variables: BTreeMap<_, _> = pairs
        .map(|(name, value)| (name.to_owned(), value.to_owned()))
        .collect();
    let template = match &**action {
        "expand" => Some(ByteTemplate::from_slice(&source)?),
        _ => None,
    };
    for _ in 0..rounds.parse()? {
        match (&template, &**action) {
            (Some(template), _) => drop(template.expand(&variables).map(black_box)),
            (None, "parse") => drop(ByteTemplate::from_slice(black_box(&source)).map(black_box)),
            (None, _) => drop(subst::substitute_bytes(black_box(&source), &variables).map(black_box)),
        }
    }
    Ok(())
}
