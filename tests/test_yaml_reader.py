"""The reader of YAML beside libyaml: random documents, 100,000 unless COUNT sets another number, and texts of
tests/data.

A document is structured, structured and then damaged, or made of tokens. The program `subst_yaml_events` prints its
tree, with spans. libyaml has to read the same collections, keys and values, in the same styles and at the same places,
and the same texts where a value is printed. One that libyaml reads may be refused, for a listed reason. The seed is
fixed, unless SEED sets another; a failure names it with the document. Skipped without PyYAML and its libyaml.
"""
import collections
import os
import pathlib
import random
import re
import resource
import unittest
from concurrent.futures import ProcessPoolExecutor
from typing import NamedTuple, Optional

from tests.support import TOP, Built, run

try:
    import yaml
    from yaml import CLoader
except ImportError:
    CLoader = None

SEED = os.environ.get('SEED', '1')
COUNT = int(os.environ.get('COUNT', 100000))
# How many documents a run of the program has.
CHUNK = 2000
MOST_PRINTED = 10
# The reason for refusing an anchor or tag.
PROPERTIES = 'a second anchor or tag, or an anchor or tag at an alias'
# Reasons for refusing a document that libyaml reads.
LAXER = (
    'a tab in the indentation',
    'a value over several lines in brackets; quote it',
    'text after a value',
    "a key after '?' isn't supported",
    "a value without a key isn't supported",
    "a collection as a key isn't supported; is this a Helm or Jinja template?",
    "a key over several lines or of more than 1,024 bytes isn't supported",
    "directives aren't supported, nor values that begin with '%'",
    "an unsupported name of an anchor, alias or tag",
    "text on the same line after '|' or '>' isn't supported, nor a document that is only a '|' or '>' block",
    "a line of spaces before the first line of text after '|' or '>'",
    "a value can't begin with this character; quote it",
    'a character that some YAML readers reject',
    "a carriage return without a line feed",
    # A lone anchor as a key in brackets, and `|` at the column of its key.
    "a missing closing bracket, or a bracket or comma out of place",
    'neither a key nor an item of the collection at this indentation',
)

# Trees: lists of `document`, `[`, `{`, `)` and scalars, so that both readers' are compared as lists.

STYLES = {'plain': '', 'single': "'", 'double': '"', 'literal': '|', 'folded': '>', 'alias': '*'}


class Scalar(NamedTuple):
    """A scalar or an alias: its style, its byte offsets, and its text, or of an alias the name, if it is known."""
    style: str
    start: int
    end: int
    text: Optional[str] = None


NULL = Scalar('', 0, 0)


class Tree:
    """The tree of lines of events."""

    def __init__(self, source, lines):
        self.source, self.nodes, self.blocks, self.brackets = source, [], [], 0
        # Whether a value is due.
        self.is_due = False
        for line in lines:
            kind, *words = line.rstrip().split(' ')
            getattr(self, kind.replace('-', '_'))(*words)
        self.close_to(0)

    def take(self):
        """Returns whether a value is due, after which none is."""
        is_due, self.is_due = self.is_due, False
        return is_due

    def close_to(self, depth):
        while True:
            if self.take():
                self.nodes.append(NULL)
            if len(self.blocks) <= depth:
                return
            self.blocks.pop()
            self.nodes.append(')')

    def scalar(self, style, start, end, value='-'):
        start, end = int(start), int(end)
        text = self.source[start + 1:end].decode() if style == 'alias' else None
        text = text if value == '-' else bytes.fromhex(value).decode()
        self.nodes.append(Scalar(STYLES[style], start, end, text))

    def document(self):
        self.close_to(0)
        self.nodes.append('document')
        self.is_due = True

    def entry(self, depth, bracket):
        if int(depth) > len(self.blocks):
            assert self.take() and int(depth) == len(self.blocks) + 1, 'a collection where no value is due'
            self.blocks.append(bracket)
            self.nodes.append(bracket)
        self.close_to(int(depth))
        assert self.blocks[-1] == bracket, 'an entry of another collection'

    def item(self, depth):
        self.entry(depth, '[')
        self.is_due = True

    def key(self, depth, *scalar):
        self.entry(depth, '{')
        self.scalar(*scalar)
        self.is_due = True

    def value(self, style, start, end, in_flow, _, value=''):
        assert in_flow == ('true' if self.brackets else 'false'), 'a value elsewhere'
        assert self.brackets or self.take(), 'a value where none is due'
        assert (style == 'alias') == (value == '-'), 'a value that is known, or is not'
        self.scalar(style, start, end, value)

    def open(self, kind):
        assert self.brackets or self.take(), 'a collection where no value is due'
        self.brackets += 1
        self.nodes.append('[' if kind == 'sequence' else '{')

    def flow_key(self, *scalar):
        self.scalar(*scalar)

    def null(self):
        self.nodes.append(NULL)

    def close(self):
        self.brackets -= 1
        self.nodes.append(')')


class Offsets:
    """The byte offsets of the characters of a text."""

    def __init__(self, text):
        self.offsets = [0]
        for character in text:
            self.offsets.append(self.offsets[-1] + len(character.encode()))

    def __getitem__(self, index):
        return self.offsets[index]


def read_by_libyaml(text):
    """Returns libyaml's tree, or None if it refuses the text. Its scalars begin at their anchors and tags."""
    opened = {yaml.SequenceStartEvent: '[', yaml.MappingStartEvent: '{', yaml.DocumentStartEvent: 'document',
              yaml.SequenceEndEvent: ')', yaml.MappingEndEvent: ')'}
    offsets, nodes = Offsets(text), []
    try:
        for event in yaml.parse(text, Loader=CLoader):
            if type(event) in opened:
                nodes.append(opened[type(event)])
            elif isinstance(event, (yaml.ScalarEvent, yaml.AliasEvent)):
                span = offsets[event.start_mark.index], offsets[event.end_mark.index]
                is_alias = isinstance(event, yaml.AliasEvent)
                style, text = ('*', event.anchor) if is_alias else (event.style or '', event.value)
                nodes.append(Scalar(style, *span, text))
    except yaml.YAMLError:
        return None
    return nodes


def is_same(source, ours, theirs):
    """Returns whether two nodes are equal, but for lines that libyaml adds to block scalars after their last."""
    if isinstance(ours, str) or isinstance(theirs, str):
        return ours == theirs
    if ours == NULL:
        return (theirs.style, theirs.text) == ('', '')
    has_properties = source[theirs.start:theirs.start + 1] in (b'&', b'!')
    starts_same = theirs.start <= ours.start if has_properties else theirs.start == ours.start
    ends_same = ours.end == theirs.end or ours.style in ('|', '>')
    is_text = ours.text in (None, theirs.text)
    return ours.style == theirs.style and is_text and starts_same and ends_same


def may_be_refused(text, line, reason):
    """Whether a text that libyaml takes may be refused for a reason at a line, or by its directive: these are read
    before the first document alone. A key that is a collection may also be refused for its anchor."""
    at = text.split('\n')[int(line) - 1]
    return reason in LAXER or at.startswith('%YAML') or reason == PROPERTIES and re.search(r'[]}]\s*:', at) is not None


def difference(text, lines):
    """Returns the difference between the printed tree of a document and libyaml's, or None."""
    theirs, last = read_by_libyaml(text), lines.pop()
    source = text.encode()
    if last != 'end':
        _, _, _, line, reason = last.split(' ', 4)
        return None if theirs is None or may_be_refused(text, line, reason) else f'refused: {reason}'
    if theirs is None:
        return 'libyaml refuses it'
    ours = Tree(source, lines).nodes
    is_all = len(ours) == len(theirs) and all(is_same(source, *nodes) for nodes in zip(ours, theirs))
    return None if is_all else f'read as {ours}, and by libyaml as {theirs}'


# Random documents

VALUES = ('a', 'b c', '$X', 'x-y', 'http://h:80/', '1', 'a#b', 'a:b', '\u00e9', '-x', '?y', ':z', '~', "it's", 'a, b', 'x {y}')
SINGLE = ('a', "it''s", 'a b', '', 'x: y', '# z')
DOUBLE = ('a', '\\n', '\\x41', '\\u00e9', 'x\\"y', '', 'a: b', '\\\\')
OVER_LINES = ('a\n b', 'a\n\n  b', 'a \n\tb', ' a \t\n \n\n  b ', '\n a', 'a\n', ' \n\n ', '\n  # a\n - b: c')
ESCAPED_LINES = ('a \\\n  b', 'a\\\n\n b', 'a\\ \n b', 'a\\t\n \\  b', 'a\n \\\n  \\ b', '\\\n \\\n\n\n b\\\\\n c', 'a\\x20\n')
PROPERTIES = (*12 * ('',), '&a ', '!t ', '!!str ', '&a !t ', '!t &a ', '!a/b.c:d ')
ENDS = ('', ' # c', '  ')
# Directives, and what they are written with where they are read or not.
DIRECTIVES = (
    *3 * ('%YAML 1.1\n', '%YAML 1.2\n', '%YAML 1.1 # c\n', '# c\n\n%YAML 1.2\t\n\n # d\n'), '%YAML 1.3\n', '%YAML  1.1\n',
    ' %YAML 1.1\n', '%YAML 1.1#c\n', '%YAML 1.1\n%YAML 1.1\n', '%TAG !e! t:\n', '%YAML 1.1\n ', '%YAML 1.1\n...\n', '%a\n')
TOKENS = (
    'a', 'b', 'k', '- ', '-', ': ', ':', '? ', '[', ']', '{', '}', ', ', ',', *4 * ('\n',), '\n  ', '\n ', '\n    ', '"x"',
    "'y'", '"', "'", '#', ' # c', '|', '>', '|-', '>+', '|2', '&a ', '*a', '!t ', '!!s ', '---', '...', '\n---', '\n...\n',
    '---\n', '%', ' ', '  ', '\t', '\u00e9', '$X', '\\', '\\n', '\\x41', '\\z', '<<', '~', '@', '`', '\r\n', '\n- ', '\n  - ',
    '%YAML 1.1\n', '%YAML 1.2 # c\n---\n', '\n%YAML 1.1\n--- ', '%YAML 1.',
    'k: ', '\nk: ', '\n  k: ', 'a: b', '"q": ', '|\n  x\n', '>\n   y\n', '\n\n', ' #', '=', '!', '&', '*', '%a\n', '? a',
    '{{ x }}', '[a, b]', '{a: b}', '- - ', '\ufeff', '\u2028', "''", '\\\n', '-x', '?x', ':x', '\\ud800', '&a\n', '!t\n')


class Maker:
    """A maker of random documents."""

    def __init__(self, rng):
        self.rng = rng

    def pick(self, *choices):
        return self.rng.choice(choices)

    def scalar(self, indent, in_flow=False, is_key=False):
        kind = self.rng.randrange(10)
        if kind < 5:
            return self.plain(indent, in_flow, is_key)
        if kind < 9:
            quote, texts, lines = self.pick(("'", SINGLE, OVER_LINES), ('"', DOUBLE, OVER_LINES + ESCAPED_LINES))
            return quote + self.rng.choice(texts if is_key else (*texts, *lines)) + quote
        return '*a ' if is_key else '*a'

    def plain(self, indent, in_flow, is_key):
        text = self.rng.choice(VALUES)
        if in_flow:
            return 'p' if text[0] in '-?:' or set(text) & set(',[]{}') else text
        while not is_key and self.rng.random() < 0.25:
            text += self.pick('\n', ' \t\n', '\n\n', '\n \n\n') + ' ' * (indent + self.rng.randrange(3))
            text += self.rng.choice(VALUES)
        return text

    def in_brackets(self, depth, indent):
        kind, properties = self.rng.randrange(8), self.rng.choice(PROPERTIES)
        if depth == 0 or kind < 4:
            return properties + self.scalar(indent, True)
        brackets, chance = ('[]', 0.2) if kind < 6 else ('{}', 0.8)
        members = []
        for _ in range(self.rng.randrange(4)):
            is_pair = self.rng.random() < chance
            key = self.rng.choice(PROPERTIES) + self.scalar(indent, True, True)
            value = self.in_brackets(depth - 1, indent)
            colon = self.pick(': ', ':\n' + ' ' * indent, ' : ')
            members.append(key + colon + value if is_pair else key if brackets == '{}' else value)
        space = self.pick('', ' ', ' ', '\n' + ' ' * indent, ' # c\n' + ' ' * indent)
        return properties + brackets[0] + space + ', '.join(members) + self.pick('', ' ', ',') + space + brackets[1]

    def lines(self, column):
        """Returns a block scalar in a collection at a column, with its header."""
        indent = column + self.rng.randrange(1, 4)
        digit = str(indent - column) if self.rng.random() < 0.2 else ''
        head = self.pick('|', '>') + digit + self.pick('', '', '-', '+') + self.rng.choice(ENDS)
        margin = ' ' * indent
        texts = 'x', 'x', ' y', '\ty ', '$X # z', '', '  '
        rows = [self.pick(*(margin + text for text in texts), '', '', margin[1:]) for _ in range(self.rng.randrange(7))]
        if rows and self.rng.random() < 0.9:
            rows[0] = rows[0] if rows[0].strip() else ' ' * indent + 'w'
        return head + '\n' + ''.join(row + '\n' for row in rows)

    def value(self, depth, column):
        """Returns the text after the mark of an item or the colon of a key at a column, to the end of its last line."""
        kind, indent = self.rng.randrange(12), column + self.rng.randrange(1, 3)
        properties = ' ' + self.rng.choice(PROPERTIES)
        if kind < 5:
            return properties + self.scalar(indent) + self.rng.choice(ENDS) + '\n'
        if kind < 6:
            return properties + self.in_brackets(2, indent) + '\n'
        if kind < 8:
            return properties + self.lines(column)
        end = self.pick('', ' ', ' # c', ' &a', ' !t # c') + '\n'
        return end if kind < 9 or depth == 0 else end + self.block(depth - 1, indent)

    def block(self, depth, column):
        is_sequence, text = self.rng.random() < 0.5, ''
        for _ in range(self.rng.randrange(1, 4)):
            text += ' ' * column
            if is_sequence and depth and self.rng.random() < 0.3:
                text += '- ' + self.block(depth - 1, column + 2).lstrip(' ')
            elif is_sequence:
                text += '-' + self.value(depth, column)
            elif depth and self.rng.random() < 0.2:
                text += self.scalar(column, is_key=True) + ':\n' + self.block(depth - 1, column + self.pick(0, 2))
            else:
                text += self.rng.choice(PROPERTIES) + self.scalar(column, is_key=True) + ':' + self.value(depth, column)
            text += self.pick(*6 * ('',), '\n', ' ' * column + '# c\n')
        return text

    def structured(self):
        documents = [self.block(3, self.pick(0, 0, 0, 2)) if self.rng.random() < 0.9 else self.scalar(0) + '\n'
                     for _ in range(self.pick(1, 1, 1, 2))]
        between = self.pick('---\n', '...\n---\n', '--- # x\n', '...\n%YAML 1.1\n---\n')
        directive = self.rng.choice(DIRECTIVES) + self.pick('---\n', '---\n', '--- # c\n', '')
        text = self.pick('', '', '---\n', '# c\n', directive) + between.join(documents)
        return self.pick(*8 * (text,), text.replace('\n', '\r\n'), text.rstrip('\n'))

    def damaged(self):
        text = self.structured()
        for _ in range(self.rng.randrange(1, 3)):
            at, other = self.rng.randrange(len(text) + 1), self.rng.randrange(len(text) + 1)
            middle = self.pick('', self.rng.choice(TOKENS), text[other:other + 6], ' ', '\n', '\t', ':', '-', '#', '"')
            text = text[:at] + middle + text[at + (middle == ''):]
        return text

    def tokens(self):
        return ''.join(self.rng.choice(TOKENS) for _ in range(self.rng.randrange(1, 14)))

    def document(self):
        return self.pick(self.structured, self.damaged, self.damaged, self.tokens)()


def differences(texts):
    """Runs the program over documents. Returns how many it reads, and the differences."""
    path, taken, found = pathlib.Path(f'documents-{os.getpid()}'), 0, []
    path.write_bytes(b''.join(b'%d\n%b' % (len(text.encode()), text.encode()) for text in texts))
    end = run('subst_yaml_events', [str(path)])
    lines = collections.deque(end.output.decode().splitlines())
    for text in texts:
        events = [lines.popleft()]
        while events[-1] != 'end' and not events[-1].startswith('refused'):
            events.append(lines.popleft())
        taken += events[-1] == 'end'
        if what := difference(text, events):
            found.append(f'{text!r}: {what}')
    assert not lines, 'more is printed than there are documents'
    return taken, found


def differences_of_chunk(number):
    maker = Maker(random.Random(f'{SEED} {number}'))
    return differences([maker.document() for _ in range(min(CHUNK, COUNT - number * CHUNK))])


# Texts with many of something: the start, the repeated part, and the end.
SLOW = (
    ('', '{a: ', ''), ('', '[', ''), ('', '[a: ', ''), ('', '{"a" : ', ''), ('', '- ', ''), ('', 'a: b\n', ''), ('a:', '\n', 'b'),
    ('', '# c\n', ''), ('"', 'a\n', '"'), ("'", "''", "'"), ('', 'a ', ''), ('', 'a\n', ''), ('a: |\n', ' b\n', ''),
    ('a: |\n b\n', '\n', ''), ('a: |+\n', '\n', 'b: c'), ('', ' ', 'a'), ('[', '*a, ', ']'), ('[', "'a': b, ", ']'),
    ('{', 'a, ', '}'), ('[', 'a,\n', ']'), ('', '---\n', ''), ('', 'a: [b]\n', ''), ('', '- - a\n', ''), ('"', '\\n', '"'),
    ("a: '", 'b\n ', "'"), ("a: '", ' ', "'"), ('a: "', 'b \\\n ', '"'), ('a: "', '\n', '"'), ('a: >\n', ' b\n  c\n', ''),
    ('a: >+\n b\n', '\n', ''),
)


def seconds(path, text):
    """Returns the least processor time of some runs of the program over a text."""
    path.write_bytes(b'%d\n%b' % (len(text), text.encode()))
    times = []
    for _ in range(3):
        before = resource.getrusage(resource.RUSAGE_CHILDREN)
        run('subst_yaml_events', [str(path)])
        after = resource.getrusage(resource.RUSAGE_CHILDREN)
        times.append(after.ru_utime + after.ru_stime - before.ru_utime - before.ru_stime)
    return min(times)


class Slowness(Built):
    """Eight times as much of something takes less than 24 times as long."""
    programs = 'subst_yaml_events',

    def test_time_grows_with_the_text(self):
        for before, piece, after in SLOW:
            with self.subTest(piece):
                few, many = (seconds(pathlib.Path('text'), before + piece * count + after) for count in (8000, 64000))
                self.assertLess(many, max(24 * few, 0.05))


@unittest.skipIf(CLoader is None, 'not installed: PyYAML with libyaml')
class BesideLibyaml(Built):
    """Texts that both readers read."""
    programs = 'subst_yaml_events',
    seed = SEED

    def assert_none(self, found):
        self.assertFalse(found, '\n'.join([f'{len(found)} differ', *found[:MOST_PRINTED]]))

    def test_random_documents(self):
        with ProcessPoolExecutor() as pool:
            chunks = list(pool.map(differences_of_chunk, range((COUNT + CHUNK - 1) // CHUNK)))
        self.assert_none([one for _, found in chunks for one in found])
        # Enough documents have to be read.
        self.assertGreater(5 * sum(taken for taken, _ in chunks), COUNT)

    def test_texts_of_the_data(self):
        files = [path for path in (TOP / 'tests/data').rglob('*') if path.is_file()]
        texts = [path.read_text(encoding='utf-8') for path in files]
        self.assert_none(differences([*texts, *(line for text in texts for line in text.splitlines())])[1])
