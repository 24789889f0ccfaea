"""Where placeholders of YAML are, by the command and by the library for C through the package for Python.

The rows are those of `subst_yaml_filled`: a text, and for each refused string the line, the column and the text of its
fault. Then random documents have scalars of all styles, in each of which are names that are nowhere else in the text.
The seed is fixed, unless SEED gives another; a failure names it.
"""
import os
import random
import re

from tests.installed import module
from tests.subst import Subst, subst
from tests.support import CRATES, Built, Case, some_size
from tests.test_yaml_rows import TEXT, spelled

ROW = re.compile(rf'\(\s*{TEXT},\s*{TEXT},?\s*\)')
SEED = os.environ.get('SEED', '1')
# Words round placeholders; those of the second list are none without quotes.
WORDS = ('a', '\u00e9\u00fc', '\u6f22', 'b:c', 'it', '\U0001f600', '{', 'x#y', '-', '/')
QUOTED = (': ', ' #', '[', '"', '&', '%')
ESCAPES = ('\\t', '\\x41', '\\u00e9', '\\U0001F600', '\\"', '\\\\\\\\', '\\N', '\\_', '\\L', '\\/')


def faults():
    """The texts, each with the lines and columns of its faults, and with the text of each fault."""
    text = (CRATES / 'subst_yaml_filled/src/place_tests.rt').read_text(encoding='utf-8')
    for source, places in ROW.findall(text[:text.index('];')]):
        yield spelled(source), re.findall(r'(\d+:\d+)=(.*?)(?= \d+:\d+=|$)', spelled(places))


class Rows(Case):
    """All rows are found."""

    def test_rows_are_many(self):
        self.assertGreater(len(list(faults())), 35)


class ByCommand(Subst):
    """The rows, by `subst --yaml`."""

    def test_faults_are_at_their_places(self):
        for source, places in faults():
            for words in ([], ['--check']):
                with self.subTest(source, words=words):
                    end = subst(['--yaml', *words], source.encode())
                    self.assertEqual(end.status, 1)
                    self.assertEqual(re.findall(r'^<stdin>:(\d+:\d+): ', end.errors.decode(), re.M),
                                     [place for place, _ in places])

    def test_names_are_at_their_places(self):
        for source, places in faults():
            if not all(re.fullmatch('[A-Z]', text) for _, text in places):
                continue
            with self.subTest(source):
                wanted = ''.join(f'{text}\t<stdin>:{place}\trequired\n' for place, text in places)
                self.assert_done(['--yaml', '--names'], source.encode(), wanted.encode())


class ByLibrary(Built):
    """The rows, by the library for C."""

    def test_faults_are_at_their_places(self):
        for source, places in faults():
            place, text = places[0]
            with self.subTest(source), self.assertRaises(module().SubstError) as caught:
                module().fill_in_yaml(source, {})
            error = caught.exception
            self.assertEqual(f'{error.line}:{error.column}', place)
            self.assertEqual(source[error.position:error.position + error.length], text)


class Maker:
    """Makes a document of items, each a scalar with names that count up."""

    def __init__(self, seed):
        self.rng = random.Random(seed)
        self.names = 0

    def pick(self, *choices):
        return self.rng.choice(choices)

    def name(self):
        self.names += 1
        return self.pick('$n{}', '${{n{}}}', '${{n{}?}}').format(self.names)

    def words(self, more=()):
        """Words of a line, of which one is a placeholder."""
        words = [self.rng.choice(WORDS + more) for _ in range(self.rng.randrange(4))]
        words.insert(self.rng.randrange(len(words) + 1), self.name())
        return self.pick(' ', '  ', '.').join(words)

    def end(self):
        """The end of a line, and empty lines."""
        return self.pick('', '', ' ') + self.line_end + ''.join(
            self.pick('', ' ') + self.line_end for _ in range(self.pick(0, 0, 1, 2)))

    def lines(self, indent, more=()):
        text = 'w ' + self.words(more)
        for _ in range(self.pick(0, 0, 1, 3)):
            text += self.end() + indent + self.pick('', ' ') + 'w ' + self.words(more)
        return text

    def plain(self, indent):
        return self.lines(indent).replace(' -', '').replace('{ ', '')

    def single(self, indent):
        return f"'{self.lines(indent, QUOTED + (chr(39) * 2,))}'"

    def double(self, indent):
        text = self.lines(indent, tuple(it for it in QUOTED if it != '"') + ESCAPES)
        return '"' + re.sub(r' *(?=\r?\n)', lambda it: self.pick(it[0], it[0], ' \\'), text, count=1) + '"'

    def block(self, indent):
        digit, column = self.pick(('', len(indent)), (f'{len(indent)}', len(indent)))
        text = self.pick('|', '>') + self.pick(digit, digit + self.pick('-', '+')) + self.pick('', ' # $c')
        rows = [self.words(QUOTED)]
        for _ in range(self.rng.randrange(5)):
            rows.append(self.pick('', '', ' ', '   ') + self.words(QUOTED) if self.rng.random() < 0.7 else '')
        # The first line has the indentation, unless a digit says it.
        rows[0] = self.pick('', '  ') + rows[0] if digit else rows[0].lstrip(' ')
        return text + ''.join(self.line_end + (row and ' ' * column + row) for row in rows)

    def item(self):
        indent = self.pick('  ', '    ')
        if self.rng.random() < 0.2:
            members = (self.pick(self.single, self.double)(indent) for _ in range(self.pick(1, 2, 3)))
            return '- [' + ', '.join(members) + ']' + self.line_end
        return '- ' + self.pick(self.plain, self.single, self.double, self.block)(indent) + self.line_end

    def document(self):
        self.line_end = self.pick('\n', '\n', '\r\n')
        return ''.join(self.item() for _ in range(self.rng.randrange(1, 8)))


class Random(Subst):
    """Random documents, by `subst --yaml --names`."""

    def test_names_are_at_their_places(self):
        for number in range(some_size(300, 3000)):
            maker = Maker(f'{SEED} {number}')
            source = maker.document()
            with self.subTest(source, seed=f'{SEED} {number}'):
                end = subst(['--yaml', '--names'], source.encode())
                self.assertEqual((end.status, end.errors), (0, b''))
                found = {name: tuple(map(int, place.split(':')[1:])) for name, place in
                         (line.split('\t')[:2] for line in end.output.decode().splitlines())}
                self.assertEqual(len(found), maker.names)
                lines = source.encode().split(b'\n')
                for name, (line, _) in found.items():
                    self.assertRegex(lines[line - 1].decode(), rf'\$\{{?{name}\b')
                self.assertEqual(found, places_of(source, maker.names))


def places_of(source, names):
    """Returns the line and the column of each name of a text."""
    found = {}
    for number in range(1, names + 1):
        start = re.search(rf'(?<=[${{])n{number}\b', source).start()
        line = source.count('\n', 0, start) + 1
        found[f'n{number}'] = line, columns(source[source.rfind('\n', 0, start) + 1:start]) + 1
    return found


def columns(text):
    """Returns the columns of a text without control characters: characters past U+2FFF have two."""
    return sum(2 if it > '\u2fff' else 1 for it in text)
