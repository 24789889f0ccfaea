#!/usr/bin/env python3
"""proved.py   Prints what is proved of the library's interface, file by file: public functions, and traits and
implementations with contracts, each with the first paragraph of its comment and its clauses, as in the source.
tests/test_house.py fails for an item that is missing here, and for a clause without a name.
"""
import functools
import re
import signal
import sys
from typing import NamedTuple

sys.dont_write_bytecode = True
from prove import crates, with_those_below
from building import CRATES

# The crates that callers depend on.
DOORS = ('subst', 'subst_filter_lib', 'subst_cli', 'subst_c')
# Files that aren't printed, as callers don't reach their functions, and why. The longest matching prefix wins; with an
# empty reason the file is printed.
HIDDEN = {
    'subst_language/src/counter.rt': 'it is there for the crates above',
    'subst_language/src/part.rt': 'it is there for the crates above',
    'subst_language/src/sink.rt': 'it is there for the crates above',
    'subst_parse/': '`subst` re-exports `Reads` alone',
    'subst_parse/src/reads.rt': '',
    'subst_expand/': '`subst` re-exports `Turns` alone',
    'subst_expand/src/turns.rt': '',
    'subst_document/': '`subst` has no function of it',
    'subst_document/src/lib.rt': '',
    'subst_json/src/typed.rt': 'its module is private, and its trait is there for each type of `serde`',
    'subst_toml/src/typed.rt': 'its module is private, and its trait is there for each type of `serde`',
    'subst_indexed/': '`subst_c` has no function of it',
    'subst_indexed/src/expand.rt': '',
    'subst_indexed/src/laws.rt': '',
    'subst_indexed/src/parse.rt': '',
    'subst_indexed/src/step.rt': '',
    'subst_indexed/src/template.rt': '',
    'subst_c/': 'its modules are private',
    'subst_c/src/named_documents.rt': '',
    'subst_c/src/style_template.rt': '',
    'subst_c/src/template.rt': '',
    'subst_c/src/style.rt': '',
    'subst_c/src/lib.rt': '',
    'subst_rows/': '`subst` has no function of it',
    'subst_rows/src/letter.rt': '',
    'subst_cli/': 'most of its modules are private',
    'subst_cli/src/entries.rt': '',
    'subst_cli/src/process.rt': '',
    'subst_expander/': 'it is there for `subst_cli`',
    'subst_expander/src/expansion.rt': '',
    'subst_options/src/table.rt': 'it is there for `subst_cli`',
}
# The beginning of an item: its margin, its visibility, its kind, and its name.
BEGIN = re.compile(r'(|    )(pub(?:\([^)]*\))? )?(?:unsafe |extern "C" )*(fn|trait|impl|type|ghost(?! use))\b ?(\w*)')
CLAUSE = re.compile(r' *(?:requires|ensures|ghost) ')
PRIVATE = re.compile(r'^(?:pub\([^)]*\) )?(?:struct|enum|trait) (\w+)', re.MULTILINE)
EXPORT = re.compile(r'^pub (?:use|mod) ([^;]*);', re.MULTILINE)
ABOUT = """\
# What is proved

Functions, traits and implementations that callers can reach, without their bodies. A caller shows what `requires` says,
and gets what `ensures` says. A function of an implementation has the contract of its trait, in which the `ghost`
members stand for what is written here: `look_up` for what a map has under a name, `from_gives` for what a conversion
returns, `output` for the text that is displayed, `is_clone` for what a clone is, `view` for what contracts see a value
as. In clauses `old` and `new` are a value before and after the call, and `now` is what a reference points to. The other
words are explained in docs/DEFINITIONS.md."""


class Item(NamedTuple):
    """A function, a trait, an implementation, named by its head, or a member of these."""
    line: int
    is_public: bool
    kind: str
    name: str
    comment: list
    head: list
    members: list

    def states(self):
        return any(map(CLAUSE.match, self.head))

    def shown(self):
        """Returns the printed members: all of a trait, the types and contracts of its implementation, and the public
        functions of other blocks."""
        if self.kind == 'trait':
            return self.members
        if ' for ' in self.name:
            return [it for it in self.members if it.kind == 'type' or it.states()]
        return [it for it in self.members if it.is_public]


def first_paragraph(comment):
    empty = [at for at, line in enumerate(comment) if not line.strip(' /!')]
    return comment[:empty[0]] if empty else comment


def comment_above(lines):
    """Returns the first paragraph of the comment at the end of these lines, before attributes."""
    at = len(lines)
    while at and re.match(r' *(//|#\[)', lines[at - 1]):
        at -= 1
    return first_paragraph([line for line in lines[at:] if '//' in line])


def head_of(lines, margin, kind):
    """Returns the lines of an item up to the end of its clauses, without the brace of its body."""
    body = re.compile(rf'{margin}(\S.* )?\{{\}}?$')
    for at, line in enumerate(lines):
        if line.endswith(';'):
            return lines[:at + 1]
        if kind != 'ghost' and (found := body.match(line)):
            return [*lines[:at], margin + found[1].rstrip()] if found[1] else lines[:at]
    return lines


def items_of(text):
    """Returns the items at the margin of a file, in order."""
    found, is_in_block, lines = [], False, text.splitlines()
    for at, line in enumerate(lines):
        begin = BEGIN.match(line)
        is_in_block = is_in_block and line != '}'
        if begin and (is_in_block or not begin[1]):
            head = head_of(lines[at:], begin[1], begin[3])
            name = ' '.join(map(str.strip, head)) if begin[3] == 'impl' else begin[4]
            item = Item(at + 1, begin[2] == 'pub ', begin[3], name, comment_above(lines[:at]), head, [])
            (found[-1].members if begin[1] else found).append(item)
            is_in_block = bool(begin[1]) or begin[3] in ('trait', 'impl')
    return found


def printed_of(text):
    """Yields the items of a file that are printed: none of private types and traits."""
    private = set(PRIVATE.findall(text))
    for item in items_of(text):
        says = item.is_public if item.kind == 'fn' else any(it.kind == 'fn' or it.states() for it in item.shown())
        if says and not private & set(re.findall(r'\w+', item.name)):
            yield item


def is_hidden(path):
    return bool(HIDDEN.get(max((it for it in HIDDEN if path.startswith(it)), key=len, default='')))


@functools.lru_cache(None)
def files():
    """Returns the text of each file of the crates that callers depend on, by its path below crates/."""
    below = with_those_below(DOORS, crates())
    paths = [path for crate in below for path in sorted((CRATES / crate).glob('src/**/*.rt'))]
    return {str(path.relative_to(CRATES)): path.read_text(encoding='utf-8') for path in paths}


def wrong_in(path, text):
    """Yields public functions that aren't printed, by a plain search, and items with a clause without a name."""
    printed = {it.line: it for item in printed_of(text) for it in (item, *item.shown())}
    for number, line in enumerate(text.splitlines(), 1):
        if re.match(r' *pub .*\bfn \w', line) and number not in printed:
            yield f'crates/{path}:{number}: tools/proved.py does not print it: {line.strip()}'
        if number in printed and any(re.match(r' *ensures\*? \{', it) for it in printed[number].head):
            yield f'crates/{path}:{number}: it has a clause without a name: {line.strip()}'


def reached(path, text):
    """Yields the exported names of a hidden file: of its crate, its module, its functions and its types."""
    crate, module = path.split('/')[0], path.split('/')[-1].removesuffix('.rt')
    exports = [export for other, of_other in files().items() for export in EXPORT.findall(of_other)
               if re.match(rf'{crate}\b', export) or crate in DOORS and other.startswith(f'{crate}/')]
    exported = {word for export in exports for word in re.findall(r'\w+(?!\w|::)', export)}
    names = {word for item in printed_of(text) for word in re.findall(r'\w+', item.name.split(' for ')[-1])}
    for name in sorted(exported & {crate, module, *names} if names else ()):
        yield f'crates/{path}: HIDDEN of tools/proved.py has it, and callers reach {name}'


def wrongs():
    """Yields all items that are missing, and clauses without a name."""
    for path, text in files().items():
        yield from (reached if is_hidden(path) else wrong_in)(path, text)


def lines_of(item):
    lines = [*item.comment, *item.head]
    for member in item.shown():
        lines += [''] * bool(member.comment) + lines_of(member)
    return lines


def page():
    yield ABOUT
    for path, text in files().items():
        items = [] if is_hidden(path) else list(printed_of(text))
        if items:
            about = first_paragraph([line[4:] for line in text.splitlines() if line.startswith('//!')])
            yield '\n'.join(['', f'## crates/{path}', '', *about, '', '```rust'])
            yield '\n\n'.join('\n'.join(lines_of(item)) for item in items)
            yield '```'


if __name__ == '__main__':
    signal.signal(signal.SIGPIPE, signal.SIG_DFL)
    print('\n'.join(page()))
