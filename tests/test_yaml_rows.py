"""Rows of the YAML tests in Rattle, by the command and by the library for C through the package for Python.

A row of `subst_yaml_filled` is a text, the value of `$X`, and the output. One of `subst_yaml_events` is a refused text,
the reason, the byte offsets of the character at which it is refused, and the line.
"""
import re

from tests.installed import module
from tests.subst import Subst, subst, write
from tests.support import CRATES, Built, Case

TEXT = r'"((?:[^"\\]|\\.)*)"'
FILLED = re.compile(rf'\(\s*{TEXT},\s*{TEXT},\s*{TEXT},?\s*\)')
REASON = re.compile(rf'\(\s*Reason::(\w+),\s*{TEXT},?\s*\)')
REFUSED = re.compile(rf'\({TEXT}, Reason::(\w+), (\d+), (\d+), (\d+)\)')
ESCAPE = re.compile(r'\\(?:u\{(\w+)\}|(.))')
ENDS = {'n': '\n', 'r': '\r', 't': '\t'}
# The other variable of the rows.
OTHER = {'A': '$A'}


def tests_of(crate):
    return (CRATES / crate / 'src/tests.rt').read_text(encoding='utf-8')


def spelled(text):
    """Returns the text that a literal of Rattle spells."""
    return ESCAPE.sub(lambda it: chr(int(it[1], 16)) if it[1] else ENDS.get(it[2], it[2]), text)


def filled():
    for row in FILLED.findall(tests_of('subst_yaml_filled')):
        yield map(spelled, row)


def refused():
    """Yields the refused texts, each with the reason in words and its position. The command skips a byte order mark."""
    text = tests_of('subst_yaml_events')
    reasons = dict(REASON.findall(text))
    for source, reason, start, end, line in REFUSED.findall(text):
        yield spelled(source), spelled(reasons[reason]), int(start), int(end), int(line)


class Rows(Case):
    """The number of rows."""

    def test_rows_are_many(self):
        self.assertGreater(len(list(filled())), 120)
        self.assertGreater(len(list(refused())), 90)


class ByCommand(Subst):
    """The rows, by `subst --yaml`."""

    def test_texts_are_filled_in(self):
        words = ['--yaml', '--keep-line-end', '--set-file=X=X', '-sA=$A']
        for source, value, output in filled():
            write('X', value.encode())
            with self.subTest(source, value=value):
                self.assert_done(words, source.encode(), output.encode())

    def test_texts_are_refused(self):
        for source, reason, start, _, line in refused():
            if source.startswith('\ufeff'):
                continue
            before = source.encode()[:start].decode()
            column = len(before) - before.rfind('\n')
            with self.subTest(source):
                end = subst(['--yaml', '-sb=1'], source.encode())
                self.assertEqual((end.status, end.output), (1, b''))
                told = f'<stdin>:{line}:{column}: error: invalid YAML: {reason}\n'
                self.assertEqual(end.errors.decode().splitlines(keepends=True)[0], told)


class ByLibrary(Built):
    """The rows, by the library for C."""

    def test_texts_are_filled_in(self):
        for source, value, output in filled():
            with self.subTest(source, value=value):
                self.assertEqual(module().fill_in_yaml(source, {'X': value, **OTHER}), output)

    def test_texts_are_refused(self):
        for source, reason, start, end, line in refused():
            data = source.encode()
            with self.subTest(source), self.assertRaises(module().DocumentError) as caught:
                module().fill_in_yaml(source, {})
            error = caught.exception
            self.assertEqual((error.message, error.line), (reason, line))
            self.assertEqual(error.position, len(data[:start].decode()))
            self.assertEqual(error.length, len(data[start:end].decode()))
