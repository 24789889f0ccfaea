"""The rows of crates/subst_vectors/data, in the form of its README.md: reading and writing them, and their answers by
the rules of the language. Documents are read by Python's readers.
"""
import json
import math
import re
import unittest
import urllib.parse
from typing import NamedTuple

from tests import rules
from tests.support import CRATES

try:
    import tomllib
except ImportError:  # before Python 3.11
    tomllib = None

DATA = CRATES / 'subst_vectors' / 'data'
# Characters that a column escapes. A byte outside of UTF-8 is read as a lone surrogate.
SPECIAL = re.compile('[\x00-\x1f\x7f%\udc80-\udcff]')
SPECIAL_IN_PAIRS = re.compile('[\x00-\x1f\x7f%,=\udc80-\udcff]')
# A leap second, which Python's reader of TOML refuses. It is read as the second before it, everywhere.
LEAP_SECOND = re.compile('([0-9]{2}:[0-9]{2}):60')


class Row(NamedTuple):
    """A row: its place, its text, its kind, source and variables, and its other columns."""
    place: str
    line: str
    kind: str
    source: bytes
    variables: dict
    answer: list


def encode(data, special=SPECIAL):
    """Returns the column of these bytes."""
    if data == b'-':
        return '%2D'
    text = data.decode('utf-8', 'surrogateescape')
    return special.sub(lambda it: f'%{ord(it[0]) & 0xff:02X}', text) or '-'


def decode(column):
    return b'' if column == '-' else urllib.parse.unquote_to_bytes(column)


def pairs_column(variables):
    pairs = [[encode(word, SPECIAL_IN_PAIRS) for word in pair] for pair in variables.items()]
    return ','.join(map('='.join, pairs)) or '-'


def variables_of(column):
    return {} if column == '-' else dict(map(decode, pair.split('=')) for pair in column.split(','))


def rows(name):
    """Yields the rows of a file of the data."""
    for number, line in enumerate((DATA / name).read_text(encoding='utf-8').split('\n'), 1):
        if line and not line.startswith('#'):
            kind, source, pairs, *answer = line.split('\t')
            yield Row(f'{name}:{number}', line, kind, decode(source), variables_of(pairs), answer)


def is_text(row):
    """Returns whether the source and all values are UTF-8."""
    try:
        b' '.join([row.source, *row.variables.values()]).decode()
    except UnicodeDecodeError:
        return False
    return True


def character_column(data):
    """Returns the column of a character, or of a byte that begins none."""
    try:
        return f'c{ord(data.decode()):X}'
    except UnicodeDecodeError:
        return f'b{data[0]:02X}'


def list_column(entries):
    return b','.join(entries).decode() or '-'


# Answers by the rules


def ruled_answer(source, variables):
    """Returns the first columns of the answer to a source."""
    try:
        return ['ok', encode(b''.join(rules.values(rules.template(source), variables)))]
    except rules.Refused as refused:
        return ruled_fault(refused)


def ruled_fault(refused):
    case, position = refused.args
    return ['fault', case.decode(), str(position)]


def ruled_lists(source, variables):
    """Returns the columns of the lists of a template."""
    items = rules.template(source)
    return [list_column(rules.variable_entries(items)), list_column(rules.missing_entries(items, variables))]


# Documents


def read_document(kind, text):
    """Returns the tree of a document. A float that JSON doesn't have is None, as in a row."""
    text = LEAP_SECOND.sub(r'\1:59', text)
    if kind == 'json':
        return json.loads(text)
    if tomllib is None:
        raise unittest.SkipTest('Python has no tomllib')
    return tomllib.loads(text.lstrip('\ufeff'), parse_float=finite)


def finite(text):
    value = float(text)
    return value if math.isfinite(value) else None


def tree_of_row(row):
    """Returns the tree in the output column of a document's row."""
    tree = read_document('json', decode(row.answer[1]).decode())
    return with_dates(tree) if row.kind == 'toml' else tree


def with_dates(tree):
    """Returns a tree with the dates of Python's reader in place of their arrays."""
    if isinstance(tree, list):
        if tree[:2] == ['date', None]:
            return read_document('toml', f'date = {tree[2]}')['date']
        return [with_dates(item) for item in tree]
    return {key: with_dates(item) for key, item in tree.items()} if isinstance(tree, dict) else tree


def text_of_tree(tree):
    """Returns a text by which trees are compared. Python's reader of TOML makes one newline of two characters, so
    carriage returns before a newline are dropped."""
    return re.sub(r'(?:\\r)+\\n', r'\\n', json.dumps(tree, default=str, sort_keys=True))
