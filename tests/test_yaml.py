"""YAML filled in by the library, read back by PyYAML.

The documents of tests/data/yaml are filled in with their names and values, and once more with hostile values in place
of some of their scalars. PyYAML has to read each output as it reads the source, but for those values, and all bytes
outside of scalars stay. The program `subst_yaml_filled` fills them in, unproved. Built, it also fills in random
documents, and damaged ones, which are refused with a line if they aren't filled in: COUNT sets their number. The
command has to have the same outputs. Without PyYAML none of these tests runs.
"""
import contextlib
import itertools
import json
import os
import random
import re
import subprocess
import unittest
from concurrent.futures import ProcessPoolExecutor
from typing import NamedTuple

from tests.subst import Subst, subst
from tests.support import CRATES, SEED, TOP, Built, Tried, run
from tests.test_yaml_reader import MOST_PRINTED, Maker, may_be_refused

try:
    import yaml
except ImportError:
    yaml = None

DATA = TOP / 'tests' / 'data'
PROGRAM = 'subst_yaml_filled'
# How many random documents are filled in.
RANDOM = int(os.environ.get('COUNT', 20000))
# How often each document is filled in with hostile values, and the share of its scalars that get one.
TIMES, SHARE = int(os.environ.get('COUNT', 12)), 0.5
# How many damaged documents, and documents of tokens, are filled in.
DAMAGED = int(os.environ.get('COUNT', 4000))
# How many documents a run of the program has.
CHUNK = 400
# The most seconds of a run.
SECONDS = 600
# The beginning of a variable that replaces a scalar.
HOSTILE = 'HOSTILE_'


class Filling(NamedTuple):
    """A document, the forms of its variables, the chosen names, and their values."""
    text: str
    written: str
    names: tuple
    values: dict


class Came(NamedTuple):
    """The outcome for a document: `filled`, `unconfirmed`, `yaml` or `subst`, and its text or the message."""
    kind: str
    text: str


# The program


def spelled(value):
    """Returns a value with %XX for control characters, `%`, `=` and `,`."""
    return ''.join(f'%{ord(c):02X}' if ord(c) < 32 or c in '%=,' else c for c in value)


def case_of(filling):
    """Returns a document in the form that the program reads."""
    lines = [name + '=' + spelled(filling.values[name]) if name in filling.values else name for name in filling.names]
    text = filling.text.encode()
    head = f'{len(text)} {filling.written} {len(lines)}\n' + ''.join(line + '\n' for line in lines)
    return head.encode() + text


def outcomes(data):
    """Yields the outcomes for the documents of a file."""
    while head := re.match(rb'(filled|unconfirmed|yaml|subst) (\d+)\n', data):
        kind, length = head.groups()
        start = len(kind) + len(length) + 2
        end = start + int(length)
        yield Came(kind.decode(), data[start:end].decode())
        data = data[end + 1:]


def came_of(fillings, name):
    """Returns the outcomes for documents, which are written to files of this name, several in each."""
    return [one for at in range(0, len(fillings), CHUNK) for one in tried(fillings[at:at + CHUNK], name)]


def write(fillings, name):
    with open(name, 'wb') as file:
        file.writelines(map(case_of, fillings))


def tried(fillings, name):
    """Returns the outcomes for documents by the program under `rt try`."""
    write(fillings, name)
    command = ['rt', 'try', '--seconds', str(SECONDS), '--data', f'{name}={os.path.abspath(name)}', '--', name]
    end = subprocess.run(command, cwd=CRATES / PROGRAM, stdin=subprocess.DEVNULL, capture_output=True, check=False)
    assert end.returncode == 0, end.stderr[-5000:]
    return outcomes_of(fillings, end.stdout)


def built(fillings, name):
    """Returns the outcomes for documents by the built program."""
    write(fillings, name)
    return outcomes_of(fillings, run(PROGRAM, [name]).output)


def outcomes_of(fillings, output):
    came = list(outcomes(output))
    assert len(came) == len(fillings), (len(came), len(fillings))
    return came


# Documents, without our reader


def events_of(text):
    """Returns the events of a text, by PyYAML. Scalars have their offsets, which are equal if a scalar is empty."""
    events = list(yaml.parse(text, Loader=yaml.CSafeLoader))
    tokens = [token for token in yaml.scan(text, Loader=yaml.CSafeLoader) if isinstance(token, yaml.ScalarToken)]
    for event in events:
        event.start = event.end = event.end_mark.index
        if is_value(event) and tokens and tokens[0].end_mark.index == event.end:
            event.start = tokens.pop(0).start_mark.index
    assert not tokens, 'a scalar is no event'
    return events


def is_value(event):
    return isinstance(event, yaml.ScalarEvent)


def told(event, value=None):
    """Returns the content of an event without its position and its style, with another value of a scalar."""
    names = 'anchor', 'tag', 'explicit', 'value'
    says = {name: getattr(event, name) for name in names if hasattr(event, name)}
    if is_value(event):
        says['value'] = event.value if value is None else value
        says['explicit'] = None
    return type(event).__name__, says


def values_of(events):
    """Returns for each event whether it is a scalar that is a value: of a mapping, a sequence or a document."""
    found, open_collections = [], []
    for event in events:
        in_mapping = open_collections and open_collections[-1][0]
        is_key = in_mapping and open_collections[-1][1] % 2 == 0
        found.append(is_value(event) and not is_key)
        if isinstance(event, (yaml.ScalarEvent, yaml.AliasEvent, yaml.CollectionStartEvent)) and open_collections:
            open_collections[-1][1] += 1
        if isinstance(event, yaml.CollectionStartEvent):
            open_collections.append([isinstance(event, yaml.MappingStartEvent), 0])
        if isinstance(event, yaml.CollectionEndEvent):
            open_collections.pop()
    return found


def around(text, event):
    """Returns the end of a scalar, and a part of it that stays: of a block, the rest of its header line. A block ends
    after its last line of text, also of blanks past its indentation, unless it keeps the lines after that."""
    start, end = event.start, event.end
    if event.style not in ('|', '>'):
        return end, ''
    sign, rest, lines = re.match(r'[|>]([-+0-9]*)([^\n]*\n?)(.*)', text[start:end], re.DOTALL).groups()
    if '+' in sign:
        return (end if text[end:].strip() else len(text)), rest
    first = re.search(r'^( *)[^ \r\n]|\Z', lines, re.MULTILINE)[1] or ''
    # With a digit the first line may begin with spaces past the indentation, which are a part of the value.
    margin = first[len(re.search(r'^( *)[^ \n]|\Z', event.value, re.MULTILINE)[1] or ''):]
    body = re.match(r'(?:.*(?:\S|(?:\A|(?<=\n))%s[ \t])[^\n]*\n?)?' % margin, lines, re.DOTALL)[0]
    return start + 1 + len(sign) + len(rest) + len(body), rest


def outside(text, events, found):
    """Returns the parts of a text outside of the scalars that are values."""
    parts, done, kept = [], 0, ''
    for event, is_one in zip(events, found):
        if is_one and event.start < event.end:
            parts.append(kept + text[done:event.start])
            done, kept = around(text, event)
    return parts + [kept + text[done:]]


# The documents


def value_in(entry):
    name, _, value = entry.partition('=')
    return name, re.sub('%([0-9A-F]{2})', lambda code: chr(int(code[1], 16)), value)


def rows():
    """Yields the documents, with their names and values."""
    for line in (DATA / 'yaml' / 'names.tsv').read_text().splitlines():
        if line and not line.startswith('#'):
            file, written, names, values = line.split('\t')
            text = (DATA / 'yaml' / file).read_bytes().decode('utf-8-sig')
            pairs = dict(value_in(entry) for entry in values.split(',') if entry)
            yield file, Filling(text, written, tuple(names.split(',')), pairs)


def hostile_values():
    for line in (DATA / 'yaml-values.tsv').read_text().splitlines():
        if not line.startswith('#'):
            yield json.loads(line.split('\t')[0])


def with_hostile(text, some, values):
    """Returns a document with variables in some scalars, and the values of these scalars then, by index."""
    events = events_of(text)
    parts, done, given, names = [], 0, {}, {}
    for index, (event, is_one) in enumerate(zip(events, values_of(events))):
        start, end = event.start, event.end
        is_empty = event.style in ('|', '>') and not event.value.strip() if is_one else True
        # libyaml reads a scalar right after the name of its anchor, if it begins with a colon.
        is_joined = re.match(r'[\w-]', text[start - 1:start])
        if is_empty or is_joined or start == end or some.random() > SHARE:
            continue
        name = names[index] = f'{HOSTILE}{len(given)}'
        given[name] = some.choice(values)
        parts += [text[done:start], with_variable(event.style, text[start:end], name, some)]
        done = end
    filling = Filling(''.join(parts) + text[done:], 'envsubst', tuple(given), given)
    read = events_of(filling.text)
    return filling, {index: replaced(read[index].value, name, given[name]) for index, name in names.items()}


def replaced(text, name, value):
    return text.replace('${' + name + '}', value).replace('$' + name, value)


def with_variable(style, token, name, some):
    """Returns a token with a variable: in place of its text, or in several lines before the words of one of them."""
    quote = style if style in ("'", '"') else ''
    if style in ('|', '>') or '\n' in token and some.random() < 0.8:
        head, body = re.match(r'([|>][^\n]*\n)(.*)', token, re.DOTALL).groups() if not quote and style else ('', token)
        lines = re.split(r'(?<=\n)', body[len(quote):len(body) - len(quote)])
        # libyaml counts less indented comments after a block to it.
        margins = {index: len(line) - len(line.lstrip(' ')) for index, line in enumerate(lines) if line.strip()} or {0: 0}
        index = some.choice([index for index in margins if not head or margins[index] >= margins[min(margins)]])
        blanks, words = re.match(r'([ \t]*)(.*)', lines[index], re.DOTALL).groups()
        # Before the white space at the end of a line between double quotes there may be an escape.
        after = words if style == '"' or some.random() < 0.5 else words[len(words.rstrip()):]
        lines[index] = blanks + some.choice(('${%s}', 'x${%s}', '${%s} ', '${%s} b')) % name + after
        return head + quote + ''.join(lines) + quote
    # Unquoted text in brackets has no braces.
    forms = ('${%s}', 'a${%s}b', 'a $%s') if quote else ('$%s', '$%s/b', 'a $%s', 'a $%s b')
    return quote + some.choice(forms) % name + quote


class Compared:
    """Texts that are filled in, compared with their sources."""

    def assert_filled(self, source, output, expected=None):
        """Fails unless the output has the source's events, with these values at some, and the bytes around them."""
        before, after = events_of(source), events_of(output)
        found = values_of(before)
        self.assertEqual(len(before), len(after))
        for index, (old, new) in enumerate(zip(before, after)):
            value = None
            if found[index]:
                value = new.value if expected is None else expected.get(index)
            self.assertEqual(told(old, value), told(new))
        self.assertEqual(outside(source, before, found), outside(output, after, found))


@unittest.skipUnless(yaml, 'no PyYAML')
class Documents(Compared, Tried):
    """The documents of tests/data/yaml."""
    seed = SEED

    def test_each_is_filled_in_with_its_values(self):
        documents = list(rows())
        for (file, filling), came in zip(documents, came_of([filling for _, filling in documents], 'documents')):
            with self.subTest(file):
                self.assertEqual(came.kind, 'filled', came.text)
                self.assert_filled(filling.text, came.text)

    def test_hostile_values_stay_in_their_scalars(self):
        some, values = random.Random(self.seed), list(hostile_values())
        cases = [(file, *with_hostile(filling.text, some, values))
                 for _, (file, filling) in itertools.product(range(TIMES), list(rows()))]
        for (file, filling, expected), came in zip(cases, came_of([case[1] for case in cases], 'hostile')):
            with self.subTest(file, seed=self.seed):
                self.assertEqual(came.kind, 'filled', came.text)
                self.assert_filled(filling.text, came.text, expected)


@unittest.skipUnless(yaml, 'no PyYAML')
class Random(Compared, Built):
    """Random documents that libyaml reads, with hostile values at some scalars. Some are refused for their layout."""
    programs = PROGRAM,
    seed = SEED

    def cases(self):
        some, values = random.Random(self.seed), list(hostile_values())
        maker = Maker(some)
        for _ in range(RANDOM):
            with contextlib.suppress(yaml.YAMLError):
                yield with_hostile(maker.structured(), some, values)

    def test_hostile_values_stay_in_their_scalars(self):
        filled = 0
        cases = list(self.cases())
        for (filling, expected), came in zip(cases, built([case[0] for case in cases], 'random')):
            with self.subTest(filling.text, values=filling.values, seed=self.seed):
                self.assertIn(came.kind, ('filled', 'yaml'), came.text)
                if came.kind == 'filled':
                    self.assert_filled(filling.text, came.text, expected)
                    filled += 1
        self.assertGreater(5 * filled, RANDOM)


# Damaged documents

# The message about a refused document.
REFUSED = re.compile(r'line ([1-9]\d*): (\S.*)')


class Attempt(NamedTuple):
    """A document, how it is filled in, and the expected values of its scalars; None if libyaml refuses it."""
    source: str
    filling: Filling
    expected: dict


def attempt(text, some, values):
    """Returns a document with hostile values at some scalars if libyaml reads it, or else with one for `$X`."""
    try:
        return Attempt(text, *with_hostile(text, some, values))
    except yaml.YAMLError:
        return Attempt(text, Filling(text, 'envsubst', ('X',), {'X': some.choice(values)}), None)


class Chunk(Compared, unittest.TestCase):
    """A chunk of damaged documents, and of documents of tokens. Its number seeds its random numbers."""

    def __init__(self, number):
        super().__init__('assert_right')
        some, values = random.Random(f'{SEED} {number}'), list(hostile_values())
        maker = Maker(some)
        count = min(CHUNK, DAMAGED - number * CHUNK)
        texts = [maker.pick(maker.damaged, maker.damaged, maker.tokens)() for _ in range(count)]
        # PyYAML doesn't count a byte order mark, which the command skips.
        self.attempts = [attempt(text.lstrip('\ufeff'), some, values) for text in texts]
        self.came = built([one.filling for one in self.attempts], f'damaged-{number}')

    def assert_right(self, source, filling, expected, came):
        """Fails unless a document is filled in, or refused with a line, for a reason for which libyaml may read it."""
        if came.kind == 'filled':
            self.assertIsNotNone(expected, 'libyaml refuses it')
            return self.assert_filled(filling.text, came.text, expected)
        refused = REFUSED.fullmatch(came.text)
        self.assertEqual((came.kind, refused is not None), ('yaml', True))
        self.assertLessEqual(int(refused[1]), filling.text.count('\n') + 1)
        if expected is not None:
            self.assertTrue(may_be_refused(filling.text, *refused.groups()), refused[2])

    def differences(self):
        for one, came in zip(self.attempts, self.came):
            try:
                self.assert_right(*one, came)
            except (AssertionError, yaml.YAMLError) as difference:
                yield f'{one.source!r} as {one.filling.text!r} with {one.filling.values!r}: {came}: {difference}'


def damaged(number):
    """Returns how many documents of a chunk are filled in, and the differences of others."""
    chunk = Chunk(number)
    return sum(came.kind == 'filled' for came in chunk.came), list(chunk.differences())


@unittest.skipUnless(yaml, 'no PyYAML')
class Damaged(Built):
    """Documents that are damaged or made of tokens, most of which aren't YAML. Those that are read are filled in with
    hostile values at some scalars; all others are refused."""
    programs = PROGRAM,
    seed = SEED

    def test_each_is_filled_in_or_refused(self):
        with ProcessPoolExecutor() as pool:
            chunks = list(pool.map(damaged, range((DAMAGED + CHUNK - 1) // CHUNK)))
        wrong = [one for _, found in chunks for one in found]
        self.assertFalse(wrong, '\n'.join([f'SEED={SEED}, {len(wrong)} differ', *wrong[:MOST_PRINTED]]))
        # Enough documents have to be filled in.
        self.assertGreater(10 * sum(filled for filled, _ in chunks), DAMAGED)


# The command

# The options for the forms of variables.
FORMS = {'own': [], 'envsubst': ['--envsubst'], 'shell': ['--shell']}


class Command(Subst):
    """The documents of tests/data/yaml, by the command."""
    programs = 'subst_cli', PROGRAM

    def test_each_is_filled_in_as_by_the_library(self):
        documents = list(rows())
        for (file, filling), came in zip(documents, built([filling for _, filling in documents], 'documents')):
            with self.subTest(file):
                data = (DATA / 'yaml' / file).read_bytes()
                values = [word for name, value in filling.values.items() for word in ('-s', f'{name}={value}')]
                words = ['--yaml', *FORMS[filling.written], '--only', ','.join(filling.names), *values]
                self.assertEqual(came.kind, 'filled', came.text)
                # A byte order mark stays.
                mark = data[:len(data) - len(filling.text.encode())]
                self.assert_ends(subst(words, data), 0, mark + came.text.encode())
