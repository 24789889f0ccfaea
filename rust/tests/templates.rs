//! Templates: copies, threads, trait objects, and maps that are asked.

use std::cell::RefCell;
use std::collections::{BTreeMap, HashMap};
use std::panic::{catch_unwind, AssertUnwindSafe};
use std::rc::Rc;
use subst::{ByteTemplate, ByteTemplateBuf, EnvBytes, NoSubstitution, Template, TemplateBuf, VariableMap};

const SOURCE: &str = "Hello ${name}!";

fn world() -> BTreeMap<String, String> {
    BTreeMap::from([("name".to_owned(), "world".to_owned())])
}

#[test]
fn a_copy_outlives_its_original() {
    let original = TemplateBuf::from_string(SOURCE.to_owned()).unwrap();
    let copies = [
        original.clone(),
        original.as_template().into(),
        original.as_template().clone().into(),
    ];
    let mut source = original.into_source();
    source.make_ascii_uppercase();
    for copy in copies {
        assert_eq!(copy.expand(&world()).unwrap(), "Hello world!");
        assert_eq!(Template::from(&copy).source(), SOURCE);
        assert_eq!(copy.into_source(), SOURCE);
    }
}

#[test]
fn a_copy_of_bytes_outlives_its_original() {
    let original = ByteTemplateBuf::from_vec(SOURCE.into()).unwrap();
    let copies = [
        original.clone(),
        original.as_template().into(),
        original.as_template().clone().into(),
    ];
    let mut source = original.into_source();
    source.make_ascii_uppercase();
    for copy in copies {
        assert_eq!(copy.expand(&world()).unwrap(), b"Hello world!");
        assert_eq!(ByteTemplate::from(&copy).source(), SOURCE.as_bytes());
        assert_eq!(copy.into_source(), SOURCE.as_bytes());
    }
}

#[test]
fn a_moved_template_keeps_its_source() {
    fn boxed(template: TemplateBuf) -> Box<TemplateBuf> {
        Box::new(template)
    }
    let templates: Vec<_> = (0..100)
        .map(|i| TemplateBuf::from_string(format!("{i} ${{name}}")))
        .collect();
    for (i, template) in templates.into_iter().enumerate() {
        let template = boxed(template.unwrap());
        assert_eq!(template.expand(&world()).unwrap(), format!("{i} world"));
    }
}

#[test]
fn debug_shows_sources() {
    assert_eq!(
        format!("{:?}", Template::from_str("a").unwrap()),
        r#"Template("a")"#
    );
    assert_eq!(
        format!("{:?}", TemplateBuf::from_string("a".to_owned()).unwrap()),
        r#"TemplateBuf("a")"#
    );
    assert_eq!(
        format!("{:?}", ByteTemplate::from_slice(b"a").unwrap()),
        r#"ByteTemplate(b"a")"#
    );
    assert_eq!(
        format!("{:?}", ByteTemplateBuf::from_vec(b"a".to_vec()).unwrap()),
        r#"ByteTemplateBuf(b"a")"#
    );
    assert_eq!(
        format!("{:?}", ByteTemplate::from_slice(b"\xFF").unwrap()),
        "ByteTemplate([255])"
    );
    assert_eq!(format!("{NoSubstitution:?}"), "NoSubstitution");
}

#[test]
fn templates_and_errors_cross_threads() {
    fn is_shared<T: Send + Sync + Unpin + std::panic::UnwindSafe + 'static>() {}
    is_shared::<Template<'static>>();
    is_shared::<TemplateBuf>();
    is_shared::<ByteTemplate<'static>>();
    is_shared::<ByteTemplateBuf>();
    is_shared::<subst::Error>();
    let template = TemplateBuf::from_string("${name} ".repeat(1000)).unwrap();
    std::thread::scope(|scope| {
        for i in 0..8 {
            let template = &template;
            scope.spawn(move || {
                for j in 0..50 {
                    let value = format!("{i}-{j}");
                    let output = template.expand(&BTreeMap::from([("name", &value)])).unwrap();
                    assert_eq!(output, format!("{value} ").repeat(1000));
                }
            });
        }
    });
    let moved = std::thread::spawn(move || template.into_source().len());
    assert_eq!(moved.join().unwrap(), 8000);
}

#[test]
fn a_map_can_be_a_trait_object() {
    let map = world();
    let by_reference: &dyn VariableMap<Value = &String> = &map;
    assert_eq!(subst::substitute(SOURCE, by_reference).unwrap(), "Hello world!");
    assert_eq!(
        subst::substitute_bytes(SOURCE.as_bytes(), by_reference).unwrap(),
        b"Hello world!"
    );
    assert_eq!(
        Template::from_str(SOURCE).unwrap().expand(by_reference).unwrap(),
        "Hello world!"
    );
    let bytes = ByteTemplate::from_slice(SOURCE.as_bytes()).unwrap();
    assert_eq!(bytes.expand(by_reference).unwrap(), b"Hello world!");
    let boxed: Box<dyn for<'a> VariableMap<'a, Value = String>> = Box::new(Nested);
    assert_eq!(subst::substitute("$n0", &*boxed).unwrap(), "core");
}

#[test]
fn values_have_many_types() {
    let array = BTreeMap::from([("a", *b"1\xFF")]);
    assert_eq!(
        subst::substitute_bytes(b"<$a$a>", &array).unwrap(),
        b"<1\xFF1\xFF>"
    );
    let owned = HashMap::from([("a", String::from("1"))]);
    assert_eq!(subst::substitute("<$a>", &owned).unwrap(), "<1>");
    let counted: HashMap<String, Rc<str>> = HashMap::from([("a".to_owned(), "1".into())]);
    assert_eq!(subst::substitute("<$a>", &counted).unwrap(), "<1>");
    assert_eq!(
        subst::substitute_bytes(b"<${a:2}>", &NoSubstitution).unwrap(),
        b"<2>"
    );
    assert_eq!(
        subst::substitute_bytes(b"<${SURELY_NOT_SET:2}>", &EnvBytes).unwrap(),
        b"<2>"
    );
}

#[cfg(feature = "indexmap")]
#[test]
fn an_index_map_is_a_map() {
    let by_text: indexmap::IndexMap<&str, &str> = [("name", "world")].into_iter().collect();
    let by_string: indexmap::IndexMap<String, String> = world().into_iter().collect();
    assert_eq!(subst::substitute(SOURCE, &by_text).unwrap(), "Hello world!");
    assert_eq!(subst::substitute(SOURCE, &by_string).unwrap(), "Hello world!");
}

/// A map that keeps the names that it is asked for. Names with `y` are set, and the values are kept on the
/// stack if they can be. It panics at the name `panic`.
#[derive(Default)]
struct Asked {
    names: RefCell<Vec<String>>,
    live: Rc<()>,
}

/// A value within itself, which has moved if its address isn't the first one that was read.
struct Inline {
    text: [u8; 8],
    address: std::cell::Cell<usize>,
    _live: Rc<()>,
}

impl AsRef<[u8]> for Inline {
    fn as_ref(&self) -> &[u8] {
        let first = self.address.get();
        self.address.set(self.text.as_ptr() as usize);
        assert!(first == 0 || first == self.address.get());
        &self.text
    }
}

impl<'a> VariableMap<'a> for Asked {
    type Value = Inline;

    fn get(&'a self, key: &str) -> Option<Inline> {
        self.names.borrow_mut().push(key.to_owned());
        assert_ne!(key, "panic");
        let mut text = *b"        ";
        key.bytes().zip(&mut text).for_each(|(byte, place)| *place = byte);
        key.contains('y').then(|| Inline {
            text,
            address: Default::default(),
            _live: self.live.clone(),
        })
    }
}

fn names_asked(source: &str) -> String {
    let asked = Asked::default();
    let _ = ByteTemplate::from_slice(source.as_bytes())
        .unwrap()
        .expand(&asked);
    assert_eq!(Rc::strong_count(&asked.live), 1);
    asked.names.take().join(" ")
}

#[test]
fn a_map_is_asked_once_for_each_needed_name_in_order() {
    assert_eq!(names_asked("none"), "");
    assert_eq!(names_asked("$y1 $y2 $y1 ${y2:x}"), "y1 y2");
    assert_eq!(names_asked("$y1 $n $y2"), "y1 n");
    assert_eq!(names_asked("$y1 ${y2:$a $b} $y3"), "y1 y2 y3");
    assert_eq!(names_asked("$y1 ${n:$y2 ${m:}} $y3 $n"), "y1 n y2 m y3");
    assert_eq!(names_asked("${n:${m:$y1}}${n:$y2}"), "n m y1 y2");
    assert_eq!(names_asked("${n:$o}$y1"), "n o");
    assert_eq!(names_asked("$y1 ${y1:$y2} $y3"), "y1 y3");
    assert_eq!(names_asked(r"\${y1:$y2} $y3"), "y2 y3");
    assert_eq!(names_asked("a:$y1:$y2}:${y3}:$n:$y4"), "y1 y2 y3 n");
}

#[test]
fn many_values_are_kept() {
    for count in [1, 15, 16, 17, 100, 1000] {
        let source: String = (0..count).map(|i| format!("${{n{i}:-}}$y{i}")).collect();
        let output: String = (0..count).map(|i| format!("-{:8}", format!("y{i}"))).collect();
        let asked = Asked::default();
        assert_eq!(
            subst::substitute_bytes(source.as_bytes(), &asked).unwrap(),
            output.as_bytes()
        );
        assert_eq!(asked.names.borrow().len(), 2 * count);
        assert_eq!(Rc::strong_count(&asked.live), 1);
    }
}

#[test]
fn a_map_may_panic() {
    let sources = [
        "$panic",
        "$y1 $panic",
        "${y1:-} $y2 ${panic:x}",
        &format!("{}$panic", "$y ".repeat(5000)),
    ];
    for source in sources {
        let template = ByteTemplate::from_slice(source.as_bytes()).unwrap();
        let asked = Asked::default();
        assert!(catch_unwind(AssertUnwindSafe(|| template.expand(&asked))).is_err());
        assert_eq!(asked.names.borrow().last().unwrap(), "panic");
        assert_eq!(Rc::strong_count(&asked.live), 1, "all values are dropped");
        assert!(template
            .expand(&BTreeMap::from([
                ("y1", "1"),
                ("y2", "2"),
                ("panic", "3"),
                ("y", "4")
            ]))
            .is_ok());
    }
}

/// A map whose values are templates' outputs.
struct Nested;

impl VariableMap<'_> for Nested {
    type Value = String;

    fn get(&self, key: &str) -> Option<String> {
        let depth: usize = key.strip_prefix('n')?.parse().ok()?;
        match depth {
            0 => Some("core".to_owned()),
            _ => Some(subst::substitute(&format!("<$n{}>", depth - 1), &Nested).unwrap()),
        }
    }
}

#[test]
fn a_map_may_expand_templates() {
    assert_eq!(
        subst::substitute("$n3 $n0 ${m:$n1}", &Nested).unwrap(),
        "<<<core>>> core <core>"
    );
}

#[test]
fn outputs_of_any_length_are_whole() {
    for length in [0, 1, 63, 64, 65, 1000, 100_000] {
        let value = "x".repeat(length);
        let map = BTreeMap::from([("a", value.as_str()), ("b", "")]);
        for (source, uses) in [
            ("$a", 1),
            ("$b${c:$a}", 1),
            ("${c:}$a$a$a$b", 3),
            ("$b${c:-}${a}${a}", 2),
        ] {
            let output = subst::substitute(source, &map).unwrap();
            assert_eq!(
                output.trim_start_matches('-'),
                value.repeat(uses),
                "{source} with {length} bytes"
            );
        }
    }
}

#[test]
fn deep_defaults_end() {
    let source = format!("{}x{}", "${a:".repeat(100_000), "}".repeat(100_000));
    assert_eq!(subst::substitute(&source, &NoSubstitution).unwrap(), "x");
    let e = subst::substitute(&source[..source.len() - 1], &NoSubstitution).unwrap_err();
    assert_eq!(e.to_string(), "Missing closing brace");
    assert_eq!(e.source_range(), 1..2);
}
