"""The library in a repository of its own, as in docs/RATTLE.md. A program there runs, unproved, the examples of that
page, of the map and the loader of docs/CALLING.md, and of the library's comments.

An example is a Rust block in a `///` comment of a crate of the library. It computes an `output`, which is an `Option`
of a document that is filled in in place, and its last line is a comment with the text of that. The first examples are
the functions of docs/RATTLE.md, the environment as that page reads it, and the map and the loader of docs/CALLING.md.
"""
import json
import pathlib
import re
import subprocess

import faults
from building import TOP, copy_library
from prove import crates, with_those_below
from tests.support import Case, ended

# The seconds that `rt try` may take. It takes half a minute on an idle machine.
SECONDS = 600
HEAD = '''//! The examples of the library, one after the other.
#![tactic(auto)]

use guest::Guest;
use loader::{Loaded, load_as};
use std::alloc::AllocError;
use std::env;
use subst::{ByteTemplate, Layered, NoEmpty, NoSubstitution, ShellMap, Template, TemplateBuf};
use subst::{escape, foreign, laws, substitute_bytes, substitute_bytes_into, substitute_bytes_owned, substitute_into};
use subst::{substitute_owned, toml, yaml};

mod guest;
mod loader;

'''
# The first lines of a `main` that expands from the environment, as in docs/RATTLE.md.
FROM_ENVIRONMENT = '''    let alloc = rt.alloc();
    let variables = %s;
    println!(rt; "{}", substitute(alloc, "Hello ${GREETED:world}!", &variables)?)?;
'''
# A function that expands from the map of docs/CALLING.md.
FROM_GUEST = '''
fn from_guest(alloc: Global) -> Result<String, Error> {
    substitute(alloc, "Hello $name!", &Guest { name: "world" })
}
'''
# The imports of the loader of docs/CALLING.md, and the code that reads servers by docs/RATTLE.md and by the loader.
LOADER = '''//! The loader of docs/CALLING.md.

use serde::DeserializeOwned;
use std::alloc::{AllocError, Global};
use std::collections::BTreeMap;
use subst::json::{Error, from_str, report};
use subst::{Env, Layered};

'''
FROM_LOADER = '''
fn from_loader(alloc: Global, source: &str, environment: &Env) -> Result<String, AllocError> {
    let mut defaults = BTreeMap::new(alloc);
    defaults.insert(String::from_str(alloc, "DOMAIN_OF_DB")?, String::from_str(alloc, "example.org")?)?;
    match load_as::<Server>(alloc, "web.json", source, environment, &defaults)? {
        Loaded::Configuration(server) => format!(in alloc; "{}:{}", server.host, server.port),
        Loaded::Refused(_, report) => Ok(report),
    }
}
'''
# A program that borrows from a template, takes its owner apart, and then uses what was borrowed.
USE_AFTER_TAKING_APART = '''//! Uses a borrowed template after its owner was taken apart.
#![tactic(auto)]

use subst::TemplateBuf;

fn main(rt: HostRuntime) -> anyhow::Result<()> {
    let owner = TemplateBuf::from_string(String::from_str(rt.alloc(), "borrowed")?).map_err(subst::Error::from)?;
    let borrowed = owner.as_template();
    let source = owner.into_source();
    println!(rt; "{} {}", source, borrowed.source())?;
    Ok(())
}
'''
READ = '''    let server = read_server(alloc, r#"{"host": "${HOST_OF_DB:db}", "port": 80}"#, &variables)?;
    println!(rt; "{}:{}", server.host, server.port)?;
    println!(rt; "{}", from_loader(alloc, r#"{"host": "db.$DOMAIN_OF_DB", "port": 80}"#, &variables)?)?;
    let source = "{\\"host\\": \\"$HOST_OF_DB\\",\\n \\"port\\": \\"${PORT_OF_DB}\\"}";
    println!(rt; "{}", from_loader(alloc, source, &variables)?)?;
'''
# The error type of the calls of a crate.
ERRORS = {'subst_json': 'json::Error', 'subst_toml': 'toml::Error', 'subst_yaml': 'yaml::Error'}
# A crate that `subst` doesn't re-export. Its own tests have its examples.
READER = 'subst_yaml_reader'


def found(path, pattern):
    """Returns the first part of a page that matches an expression."""
    return re.search(pattern, (TOP / path).read_text(encoding='utf-8'), re.M | re.S)[1]


def examples():
    """Yields each example in a comment: its crate, its lines, and its output."""
    for crate in (it for it in with_those_below(['subst'], crates()) if it != READER):
        for path in sorted((TOP / 'crates' / crate / 'src').rglob('*.rt')):
            for block in re.findall(r'^ */// ```rust\n(.*?)^ */// ```$', path.read_text(encoding='utf-8'), re.M | re.S):
                *lines, printed = [line.strip()[len('/// '):] for line in block.splitlines()]
                yield crate, lines, text_of(printed.removeprefix('// '))


def text_of(printed):
    """Returns the printed form of an output, which may be written as an `Option`."""
    some = re.fullmatch(r'Some\((".*")\)', printed)
    return json.loads(some[1]) if some else printed


def function(number, crate, lines):
    """Returns an example as a function."""
    error = ERRORS.get(crate, 'Error')
    ends = 'Ok(String::from_str(alloc, std::str::from_utf8(&output).unwrap_or("not UTF-8"))?)' \
        if any(word in line for word in ('substitute_bytes', 'Vec::from_slice') for line in lines) else 'Ok(output)'
    if any('fill_in(' in line for line in lines):
        ends = 'Ok(output.unwrap_or(String::new(alloc)))'
    body = ''.join(f'    {line}\n' for line in [*lines, ends])
    return f'\nfn example_{number}(alloc: Global) -> Result<String, {error}> {{\n{body}}}\n'


def program():
    of_comments = [function(number, crate, lines) for number, (crate, lines, _) in enumerate(examples())]
    calls = ['greet', 'from_guest', *(f'example_{number}' for number in range(len(of_comments)))]
    prints = FROM_ENVIRONMENT % found('docs/RATTLE.md', r'`(Env::from_pairs\([^`]*)`') + READ
    prints += ''.join(f'    println!(rt; "{{}}", {call}(alloc)?)?;\n' for call in calls)
    main = f'\nfn main(rt: HostRuntime) -> anyhow::Result<()> {{\n{prints}    Ok(())\n}}\n'
    block = found('docs/RATTLE.md', r'^```rust\n(.*?)^```$')
    return ''.join([HEAD, block, FROM_GUEST, FROM_LOADER, *of_comments, main])


def own_map():
    """Returns the block of docs/CALLING.md with a map."""
    return found('docs/CALLING.md', r'^```rust\n((?:(?!```).)*?^impl(?:(?!```).)*?VariableMap.*?)^```$')


def loader():
    """Returns the block of docs/CALLING.md with a loader, and the type that the loader returns."""
    loaded = re.search(r'^#\[derive\(Drop\)\]\npub enum Loaded.*?^}$',
                       (TOP / 'crates/subst_uses/src/config.rt').read_text(encoding='utf-8'), re.M | re.S)[0]
    return LOADER + loaded + '\n\n' + found('docs/CALLING.md', r'^```rust\n(pub fn load_as.*?)^```$')


def output():
    host, port = (faults.no_such_variable(name) for name in ('HOST_OF_DB', 'PORT_OF_DB'))
    reported = (f'web.json:1:12: /host: {host}\n  {{"host": "$HOST_OF_DB",\n{13 * " "}^^^^^^^^^^\n'
                f'web.json:2:13: /port: {port}\n   "port": "${{PORT_OF_DB}}"}}\n{14 * " "}^^^^^^^^^^\n')
    first = ['Hello world!', 'db:80', 'db.example.org:80', reported, 'Hello world!', 'Hello world!']
    return ''.join(f'{line}\n' for line in [*first, *(printed for _, _, printed in examples())])


class OtherRepository(Case):
    """A program of another repository."""

    def write(self, **modules):
        """Writes a program of these modules over the library. Returns the options that run a command in its folder."""
        crate = pathlib.Path('crates/greeting')
        (crate / 'src').mkdir(parents=True)
        lines = copy_library(pathlib.Path('.'))
        pathlib.Path('crates.txt').write_text(f'{lines}greeting: subst anyhow serde\n', encoding='utf-8')
        for name, text in modules.items():
            (crate / f'src/{name}.rt').write_text(text, encoding='utf-8')
        return {'cwd': crate, 'timeout': SECONDS}

    def test_the_examples_of_the_library_print_what_is_written(self):
        options = self.write(main=program(), guest=own_map(), loader=loader())
        end = ended(['rt', 'try'], stderr=subprocess.PIPE, **options)
        self.assertEqual(end.stdout, output(), end.stderr)

    def test_a_borrowed_template_is_not_used_after_its_owner_was_taken_apart(self):
        end = ended(['rt', 'try'], **self.write(main=USE_AFTER_TAKING_APART))
        self.assertNotEqual(end.returncode, 0)
        self.assertIn('cannot move out of `owner` because it is borrowed', end.stdout)
