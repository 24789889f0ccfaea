//! The names that a map is asked for, beside those that a walk over random trees of templates needs.

use std::cell::RefCell;
use subst::{Template, VariableMap};

/// An item of a template: text, or a variable that may have a default.
enum Item {
    Text(&'static str),
    Variable(char, Option<Vec<Item>>),
}

/// Random numbers, by Marsaglia's xorshift.
struct Random(u64);

impl Random {
    fn below(&mut self, most: u64) -> u64 {
        self.0 ^= self.0 << 13;
        self.0 ^= self.0 >> 7;
        self.0 ^= self.0 << 17;
        self.0 % most
    }

    fn items(&mut self, depth: u64) -> Vec<Item> {
        (0..self.below(5)).map(|_| self.item(depth)).collect()
    }

    fn item(&mut self, depth: u64) -> Item {
        let name = char::from(b'a' + self.below(8) as u8);
        match self.below(6) {
            0 => Item::Text([" ", ":", "?", r"\$", r"\:", "ab"][self.below(6) as usize]),
            1..=3 if depth > 0 => Item::Variable(name, Some(self.items(depth - 1))),
            _ => Item::Variable(name, None),
        }
    }
}

/// Returns the source of a template.
fn source_of(items: &[Item]) -> String {
    let source = |item: &Item| match item {
        Item::Text(text) => (*text).to_owned(),
        Item::Variable(name, None) => format!("${{{name}}}"),
        Item::Variable(name, Some(default)) => format!("${{{name}:{}}}", source_of(default)),
    };
    items.iter().map(source).collect()
}

/// Adds the needed names, of which those in `set` have a value. Returns whether none is missing.
fn needs(items: &[Item], set: &str, names: &mut Vec<char>) -> bool {
    items.iter().all(|item| match item {
        Item::Text(_) => true,
        Item::Variable(name, default) => {
            if !names.contains(name) {
                names.push(*name);
            }
            let expand_default = |items: &Vec<Item>| needs(items, set, names);
            set.contains(*name) || default.as_ref().map_or(false, expand_default)
        }
    })
}

/// A map with these names, which keeps the names that it is asked for.
struct Asked {
    set: String,
    names: RefCell<Vec<char>>,
}

impl VariableMap<'_> for Asked {
    type Value = &'static str;

    fn get(&self, key: &str) -> Option<&'static str> {
        self.names.borrow_mut().extend(key.chars());
        self.set.contains(key).then_some("value")
    }
}

#[test]
fn exactly_the_needed_names_are_asked_for() {
    let mut random = Random(88_172_645_463_325_252);
    for _ in 0..20_000 {
        let items = random.items(3);
        let set = ('a'..='h').filter(|_| random.below(3) > 0).collect();
        let (source, map) = (
            source_of(&items),
            Asked {
                set,
                names: RefCell::default(),
            },
        );
        let mut names = Vec::new();
        let is_whole = needs(&items, &map.set, &mut names);
        assert_eq!(
            Template::from_str(&source).unwrap().expand(&map).is_ok(),
            is_whole,
            "{source}"
        );
        assert_eq!(*map.names.borrow(), names, "{source} with {}", map.set);
    }
}
