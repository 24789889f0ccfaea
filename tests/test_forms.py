"""The examples of docs/decisions with forms that this version of the kit refuses.

Each is checked alone, as on its page, and has to end as the page says. If it ends otherwise with another version of the
kit, the decision is to be taken anew.
"""
import functools
import pathlib
import re

from tests.support import TOP, Built, ended

SECONDS = 300
# A trait like `VariableMap` for one name, and a struct of two maps.
TWO_MAPS = '''ghost use Rattle.std.specs.Prelude.{Option};

pub trait Map<'a> {
    type Value;
    ghost Seen: { Type 0 };
    ghost look_up: { Self → Option Seen };
    fn get(&'a self) -> Option<Self::Value>;
}

pub struct Both<'a, M, N> {
    pub first: &'a M,
    pub second: &'a N,
}
'''
# The code in front of each page's example, and the words of `rt check`.
FORMS = {
    '01-message-in-place': ('', 'fn form::look: no proof'),
    '03-never-value': ('use std::convert::AsStr;\n', 'fn form::NeverValueAsStr::as_str: proved'),
    '04-writers-that-fail': ('ghost use Rattle.std.specs.Prelude.{IsOk};\n\nuse std::fmt;\n', 'fn form::say: no proof'),
    '26-c-no-handles': ('use std::alloc::Global;\n', 'error[cell-in-c]'),
    '28-two-kinds-of-maps': (TWO_MAPS, 'impl form::BothMap: not proved; antt refuses `look_up-value`'),
}


class Forms(Built):
    """Forms that are proved, or that `rt check` refuses."""

    def assert_ends_as_its_page_says(self, name):
        """Checks the first Rust block of a page as a crate, which is a library for C if the page is about that."""
        imports, says = FORMS[name]
        page = (TOP / f'docs/decisions/{name}.md').read_text(encoding='utf-8')
        example = re.search(r'^```rust\n(.*?)^```$', page, re.MULTILINE | re.DOTALL)[1]
        source = pathlib.Path('crates/form/src')
        source.mkdir(parents=True)
        (source / 'lib.rt').write_text(f'//! An example.\n#![tactic(auto)]\n\n{imports}\n{example}', encoding='utf-8')
        kind = ' staticlib' if 'extern "C"' in example else ''
        pathlib.Path('crates.txt').write_text(f'form{kind}:\n', encoding='utf-8')
        end = ended(['rt', 'check'], cwd=source.parent, timeout=SECONDS)
        self.assertIn(says, end.stdout)
        self.assertEqual(end.returncode == 0, says.endswith(': proved'), end.stdout)


for form in FORMS:
    setattr(Forms, f'test_form_of_{form[3:].replace("-", "_")}_ends_as_its_page_says',
            functools.partialmethod(Forms.assert_ends_as_its_page_says, form))
