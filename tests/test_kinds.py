"""Strings that keep their kind when they are filled in: rows of tests/data/kinds.tsv, and random documents.

A string changes to double quotes only if its own kind can't hold the value. Otherwise all bytes outside its
placeholders stay. 3,000 documents, or COUNT, are joined from pieces whose texts are known; a third are JSON, and half
of the others have CRLF line ends. The output of `subst` is matched piece by piece, with any spelling of a value, and
Python's readers have to read it as the tree of the source, filled in by tests/rules.py. The reader of TOML folds CRLF,
so line ends of values are escaped in such a file, and each string is read once more with all its carriage returns. The
seed is fixed, unless SEED sets another; a failure names it.
"""
import functools
import os
import random
import re
import tempfile
from concurrent.futures import ProcessPoolExecutor
from typing import NamedTuple

from building import TOP
from tests import rules
from tests.subst import Subst, subst, write
from tests.test_vectors import by_subst
from tests.vectors import read_document, rows, text_of_tree

TABLE = TOP / 'tests/data/kinds.tsv'
SEED = os.environ.get('SEED', '1')
COUNT = int(os.environ.get('COUNT', 3000))
# How many documents a run has, and how many wrong ones of a run are printed.
CHUNK, MOST_PRINTED = 50, 3
# The document after each document of a run.
ENDS = {'json': '"the end of a document"\n', 'toml': 'the = "end of a document"\n'}
# Values by the names of variables, without `none`.
VALUES = {
    'empty': '', 'word': 'shop', 'blank': ' ', 'blanks': '  b ', 'digit': '0', 'hash': '#', 'comment': ' # a',
    'bracket': ']', 'brace': '}', 'open': '${', 'dollar': '$', 'name': '$word', 'itself': '${itself}',
    'q1': "'", 'q2': "''", 'q3': "'''", 'q7': 7 * "'", 'its': "it's", 'begins': "'a", 'ends': "a'",
    'd1': '"', 'd2': '""', 'd3': '"""', 'd7': 7 * '"', 'said': '"a" b"', 'both': '"""\'\'\'', 'tag': '</',
    'header': '"\n[a]\nb = "', 'escaped': "'\n[a]\nb = '", 'slash': '\\', 'slashes': '\\\\', 'escape': '\\n',
    'number': '\\u0041', 'path': 'C:\\new\\', 'joined': 'a\\\n  b', 'lf': '\n', 'lfs': '\n\n', 'line': 'a\n',
    'lines': '\na\n b', 'cr': '\r', 'crs': 'a\rb', 'crlf': '\r\n', 'crlfs': 'a\r\nb\r\n', 'lfcr': '\n\r',
    'tab': '\t', 'tabs': '\ta\t', 'bell': '\b\f', 'null': '\0', 'one': '\x01', 'esc': '\x1b[0m',
    'unit': '\x1f', 'del': '\x7f', 'e9': '\u00e9', 'letters': '\u0416\u20ac', 'emoji': '\U0001f600',
    'parted': '\u2028', 'wide': '\u200b\u4e2d', 'mark': '\ufeff',
}
# Beginnings of placeholders, and an escape of the template language.
FORMS = '$%s', '${%s}', '${%s}', '${%s?}', '${none?}', '\\', '${%s:', '${none:', '${none:'
# Names of variables, some of which are drawn more often.
NAMES = (*VALUES, *10 * ('empty',), *4 * ('q1', 'd1'))
VARIABLES = {name.encode(): value.encode() for name, value in VALUES.items()}

# Kinds of strings

# The kinds of strings: `json`, and the quotes of TOML, some of which are drawn more often.
JSON, TOML = 'json', ("'", "'", '"', "'''", "'''", "'''", '"""', '"""', '"""')
# Texts outside placeholders, in their spelling and as they are read; `\n` is a line end of the file.
PLAIN = ('a', 'b9', 'Z_', '-', ' ', '  ', '#', ' # ', ']', '{}', ': ', ', ', '/', '\u00e9', '\u0416\u20ac',
         '\U0001f600', '\u2028', '\u200b')
ESCAPES = (('\\u00e9', '\u00e9'), ('\\u00E9', '\u00e9'), ('\\u0041', 'A'), ('\\u0020', ' '),
           ('\\u0000', '\0'), ('\\u007f', '\x7f'), ('\\"', '"'), ('\\n', '\n'), ('\\r', '\r'),
           ('\\t', '\t'), ('\\f', '\f'))
OF_TOML = ('\\U0001F600', '\U0001f600'), ('\\U0000000a', '\n')
OF_JSON = ('\\/', '/'), ('\\/', '/'), ('\\ud83d\\uDE00', '\U0001f600')
CONTINUED = tuple((text, '') for text in ('\\\n', '\\\n', '\\\n  ', '\\ \t\n\n \t'))


def raw(*texts):
    return tuple((text, text) for text in (*PLAIN, *texts))


OWN = {
    "'": raw('\t', '"', '""', '"""'),
    '"': raw('\t', "'", "''", "'''") + ESCAPES + OF_TOML,
    "'''": raw('\t', '"', '""', '"""', "'", "''", '\n', '\n', '\n\n'),
    '"""': raw('\t', "'", "'''", '"', '""', '""', '\n', '\n', '\n\n') + ESCAPES + OF_TOML + 2 * CONTINUED,
    JSON: raw("'", "'''", '\x7f') + ESCAPES + OF_JSON,
}
# The letters of escapes in TOML and JSON.
LETTERS = {'"': '"', '\\': '\\', '\b': 'b', '\f': 'f', '\n': 'n', '\r': 'r', '\t': 't'}
# Characters of values that a literal string can't hold.
UNFIT = {"'": re.compile("['\0-\x08\n-\x1f\x7f]"), "'''": re.compile('[\0-\x08\x0b-\x1f\x7f]')}
# In strings of many lines, parts whose carriage returns aren't read, and carriage returns that Python's reader drops.
# Another character replaces the latter.
FOLDED = {"'''": re.compile('(^\r?\n)|\r(?=\n)'),
          '"""': re.compile(r'(^\r?\n|\\[^ \t\r\n]|\\[ \t]*\r?\n[ \t\r\n]*)|\r(?=\n)')}
RETURN = '\ue000'
# The strings of double quotes that one of each kind can become.
OF_LINES = re.compile(r'"""((?:[^\\]|\\.)*?"{0,2})"""(?!")', re.DOTALL)
DOUBLE = {"'": re.compile(r'"(?!"")(?:[^"\\\n]|\\.)*"'), "'''": OF_LINES, '"""': OF_LINES}


class Piece(NamedTuple):
    """A piece of a string: its spelling, its text, and the value of a placeholder."""
    spelled: str
    text: str
    value: object = None

    def has_crlf(self):
        return self.value is not None and '\r\n' in self.spelled


class Token(NamedTuple):
    """A string of a document: its kind and its pieces."""
    kind: str
    pieces: list

    def between(self, spelled):
        quotes = '"' if self.kind == JSON else self.kind
        return quotes + spelled + quotes

    def joined(self, spelling, own=str):
        """Returns the string between its quotes, with a spelling of the value of each placeholder."""
        return ''.join(own(it.spelled) if it.value is None else spelling(it) for it in self.pieces)

    def spelled(self):
        return self.between(''.join(piece.spelled for piece in self.pieces))

    def text(self):
        return ''.join(piece.text for piece in self.pieces)

    def value(self):
        return ''.join(piece.text if piece.value is None else piece.value for piece in self.pieces)

    def has_crlf(self):
        """Returns whether a placeholder has a line end of the file, which Python's reader folds."""
        return any(piece.has_crlf() for piece in self.pieces)


def filled(tree):
    return rules.filled(tree, VARIABLES)


def string_of(kind, token):
    """Returns the string that a token spells, or None if it spells none."""
    try:
        return read_document(JSON, token) if kind == JSON else read_document('toml', f's = {token}\n')['s']
    except ValueError:
        return None


def string_with_returns(kind, token):
    """Returns the string that a token spells for a reader that folds no line ends."""
    quotes = token[:3]
    if quotes not in FOLDED:
        return string_of(kind, token)
    body = FOLDED[quotes].sub(lambda found: found[1] or RETURN, token[3:-3])
    return (string_of(kind, quotes + body + quotes) or '').replace(RETURN, '\r')


# Random documents


class Maker:
    """A maker of strings and documents, which draws each line end of a file."""

    def __init__(self, rng, line_ends):
        self.rng, self.line_ends, self.count = rng, line_ends, 0

    def lines(self, text):
        return re.sub('\n', lambda _: self.rng.choice(self.line_ends), text)

    def own(self, kind):
        """Returns a text outside placeholders, in its spelling and as it is read."""
        spelled, text = self.rng.choice(OWN[kind])
        return self.lines(spelled), text

    def syntax(self, kind, text):
        """Yields the characters of a placeholder, in their spelling and as they are read."""
        for at, c in enumerate(text):
            if kind == '"""' and at and self.rng.random() < 0.01:
                yield self.lines('\\\n '), ''
            if kind in UNFIT:
                yield c, c
            else:
                yield (f'\\u{ord(c):04x}' if self.rng.random() < 0.03 else c.replace('\\', '\\\\')), c

    def placeholder(self, kind, depth=2):
        """Returns a placeholder, or an escape of the template language, as a list of such characters and texts."""
        rng = self.rng
        form = rng.choice(FORMS)
        text = form.replace('%s', rng.choice(NAMES)) if form != '\\' else form + rng.choice('\\${}:')
        pairs = list(self.syntax(kind, text))
        if form.endswith(':'):
            for _ in range(rng.randrange(4)):
                is_nested = depth > 0 and rng.random() < 0.4
                pairs += self.placeholder(kind, depth - 1) if is_nested else [self.own(kind)]
            pairs += self.syntax(kind, '}')
        return pairs

    def piece(self, kind):
        if self.rng.random() < 0.6:
            return Piece(*self.own(kind))
        spelled, text = map(''.join, zip(*self.placeholder(kind)))
        return Piece(spelled, text, filled(text))

    def token(self, *kinds):
        """Returns a string that is read and filled in like its pieces one by one."""
        while True:
            kind, count = self.rng.choice(kinds), self.rng.choice((0, 1, 1, 2, 2, 3, 4, 6))
            try:
                token = Token(kind, [self.piece(kind) for _ in range(count)])
                is_read = string_of(kind, token.spelled()) == token.text()
                if is_read and filled(token.text()) == token.value():
                    return token
            except rules.Refused:
                pass

    def key(self, *forms):
        """Returns a new key; it stays if it looks like a variable."""
        self.count += 1
        return self.rng.choice(('"k%d"', '"$its %d"', '"\\u0024{its} %d"', *forms)) % self.count

    def between(self, brackets, items, *spaces):
        """Returns lists of parts between brackets, with commas, white space and comments."""
        parts, comma = [brackets[0]], ''
        for item in items:
            parts += [comma, self.lines(self.rng.choice(spaces)), *item, self.lines(self.rng.choice(spaces))]
            comma = ','
        return [*parts, brackets[1]]


class Json(Maker):
    """A maker of JSON documents."""

    def value(self, depth):
        pick, below = self.rng.random(), [depth - 1] * self.rng.randrange(4)
        if depth == 0 or pick < 0.5:
            return [self.token(JSON) if pick < 0.9 else self.rng.choice(('1.50', '-0', 'null', '1E40'))]
        if pick < 0.7:
            return self.between('[]', map(self.value, below), '', ' ', '\n\t')
        return self.between('{}', ([self.key(), ': ', *self.value(it)] for it in below), '', ' ', '\n\t')

    def document(self):
        return [*self.between('[]', (self.value(2) for _ in range(4)), '', '\n'), self.lines('\n')]


class Toml(Maker):
    """A maker of TOML documents."""

    def value(self, depth):
        pick, below = self.rng.random(), [depth - 1] * self.rng.randrange(4)
        if depth == 0 or pick < 0.7:
            return [self.token(*TOML) if pick < 0.9 else self.rng.choice(('1_0', '0.5', 'true', '07:32:00'))]
        if pick < 0.87:
            return self.between('[]', map(self.value, below), '', ' ', '\n\t', ' # "$its" \'\'\'\n', '\n#]\n')
        return self.between('{}', map(self.pair, below), '', ' ')

    def pair(self, depth=2):
        return [self.key('k%d', "'$its %d'"), self.rng.choice(('=', ' = ')), *self.value(depth)]

    def line(self):
        return [*self.pair(), self.lines(self.rng.choice(('\n', ' # "$its"\n', "\t# it's '''\n", '#"""\n')))]

    def document(self):
        parts = [self.lines('# $its\n'), *self.line()]
        for header in ('', '[t.%s]', '[[a]]', '[a.b]', '[[a]]', '[t.%s]')[:self.rng.randrange(1, 7)]:
            parts += [header.replace('%s', self.key()), self.lines('\n'), *self.line(), *self.line()]
        return parts


def documents(kind, number):
    """Yields the documents of a run, as lists of texts and strings. Some have line ends of both kinds."""
    rng = random.Random(f'{SEED} {kind} {number}')
    for count in range(CHUNK):
        line_ends = ('\n',) if count % 2 else ('\r\n',) if count % 8 else ('\r\n', '\n', '\n')
        yield (Json if kind == JSON else Toml)(rng, line_ends).document()


def source_of(parts):
    return ''.join(part.spelled() if isinstance(part, Token) else part for part in parts)


# Outputs of documents


def number(letter, digits):
    """Returns a pattern of an escape by number, with digits of either case."""
    return rf'\\{letter}' + ''.join(f'[{digit}{digit.upper()}]' for digit in digits)


@functools.lru_cache(None)
def spellings(kind, c, is_crlf):
    """Returns a pattern of the spellings of a character of a value."""
    if kind in UNFIT:
        return re.escape(c)
    units = re.findall('....', c.encode('utf-16-be').hex())
    ways = [''.join(number('u', unit) for unit in units)] if kind == JSON or len(units) == 1 else []
    ways += [number('U', f'{ord(c):08x}')] if kind != JSON else [r'\\/'] if c == '/' else []
    ways += [re.escape('\\' + LETTERS[c])] if c in LETTERS else []
    has_lines = kind == '"""'
    is_raw = {'\n': has_lines and not is_crlf, '"': has_lines, '\t': kind != JSON, '\x7f': kind == JSON}
    ways += [re.escape(c)] if is_raw.get(c, c >= ' ' and c != '\\') else []
    return f'(?:{"|".join(ways)})'


def kept(token, is_crlf):
    """Returns a pattern of a string whose bytes outside the placeholders stay. A line end, which isn't read, may come
    before a value at the start of a string of many lines."""
    def spelling(piece):
        folded = '(?:\r?\n|(?:\\\\r)?\\\\n)'
        return ''.join(folded if c == '\n' and piece.has_crlf() else spellings(token.kind, c, is_crlf)
                       for c in piece.value)

    begins = len(token.kind) == 3 and token.pieces[0].value is not None
    return re.compile(token.between('(?:\r?\n)?' * begins + token.joined(spelling, re.escape)))


def can_stay(token):
    """Returns whether a basic string of many lines can keep its bytes. Next to an empty value they may be three quotes,
    or a backslash and blanks that aren't read."""
    spelled = token.joined(lambda piece: ''.join(f'\\U{ord(c):08x}' for c in piece.value))
    starts = ('', '\n') if token.pieces[0].value is not None else ('',)
    return any(string_of(token.kind, token.between(start + spelled)) == token.value() for start in starts)


def edges(text):
    """Returns the number of quotes at the start and at the end."""
    return len(text) - len(text.lstrip("'")), len(text) - len(text.rstrip("'"))


def fits(token, is_crlf):
    """Returns whether a string can hold its value in its kind with all other bytes, or None if both answers are right:
    a quote is next to those that begin or end the string."""
    if token.kind not in UNFIT:
        return token.kind != '"""' or can_stay(token)
    values = ''.join(piece.value or '' for piece in token.pieces)
    text = token.joined(lambda piece: piece.value)
    if UNFIT[token.kind].search(values) or "'''" in text or is_crlf and '\n' in values:
        return False
    before = edges(token.joined(lambda piece: piece.spelled))
    return None if any(now not in (0, then) for now, then in zip(edges(text), before)) else True


def line_ends(spelled):
    """Returns the line ends of a string of many lines that are read."""
    return re.findall('\r?\n', re.sub('^\r?\n', '', spelled))


def matched(token, output, at, is_crlf):
    """Matches, at an offset of an output, the string that a token has to become. Returns None if there is none."""
    if token.value() == token.text():
        return re.compile(re.escape(token.spelled())).match(output, at)
    is_fit = fits(token, is_crlf)
    found = kept(token, is_crlf).match(output, at) if is_fit is not False else None
    if found or is_fit:
        return found
    found, own = DOUBLE[token.kind].match(output, at), line_ends(token.joined(lambda piece: 'x'))
    are_known = is_crlf and token.kind == "'''" and not token.has_crlf()
    return None if found and are_known and line_ends(found[1]) != own else found


def compare(wanted, came, has_crlf, what):
    """Fails unless trees are equal, without carriage returns before a newline if some are folded."""
    is_same = text_of_tree(came) == text_of_tree(wanted) if has_crlf else came == wanted
    assert is_same, f'{what} is read as {came!r} and not {wanted!r}'


def check_output(kind, parts, output):
    """Checks the output of a document, part by part and as a whole."""
    source, at, has_crlf = source_of(parts), 0, False
    for part in parts:
        if isinstance(part, Token):
            found = matched(part, output, at, '\r\n' in source)
            assert found, f'{part.spelled()!r}, of {part.value()!r}, becomes {output[at:at + 99]!r}'
            string, wanted = string_with_returns(kind, found[0]), string_with_returns(kind, part.spelled())
            compare(filled(wanted), string, False, f'{part.spelled()!r}, which becomes {found[0]!r},')
            at, has_crlf = found.end(), has_crlf or part.has_crlf()
        else:
            assert output.startswith(part, at), f'in the place of {part!r} is {output[at:at + 99]!r}'
            at += len(part)
    assert at == len(output), f'after the end is {output[at:at + 99]!r}'
    compare(filled(read_document(kind, source)), read_document(kind, output), has_crlf, 'the output')


# Tests


def outputs_of(kind, sources):
    """Returns the program's outputs for documents, from a new folder."""
    folder = tempfile.mkdtemp(dir='.')
    for name, source in (*enumerate(sources), ('end', ENDS[kind]), ('null', VALUES['null'])):
        write(os.path.join(folder, str(name)), source.encode())
    words = [f'-s{name}={value}' for name, value in VALUES.items() if name != 'null']
    files = [file for number in range(len(sources)) for file in (str(number), 'end')]
    end = subst([f'--{kind}', *words, '--set-file', 'null=null', *files], cwd=folder)
    refused = [sources[int(name)] for name in re.findall(r'^(\d+):', end.errors.decode(), re.MULTILINE)]
    assert end.status == 0, f'status {end.status}, {end.errors.decode()[:999]}of {refused[:MOST_PRINTED]!r}'
    outputs = end.output.decode().split(ENDS[kind])[:-1]
    assert len(outputs) == len(sources), f'{len(sources)} documents have {len(outputs)} outputs'
    return outputs


def check_run(kind, number):
    """Checks the documents of a run, and fails with some of the wrong ones."""
    made, wrong = list(documents(kind, number)), []
    head = f'documents of {kind} in run {number} that are wrong, of {CHUNK}: '
    for parts, output in zip(made, outputs_of(kind, list(map(source_of, made)))):
        try:
            check_output(kind, parts, output)
        except (ValueError, AssertionError) as error:
            wrong.append(f'{error}\n    {source_of(parts)!r}\n    gives {output!r}')
    assert not wrong, '\n'.join([f'{head}{len(wrong)}', *wrong[:MOST_PRINTED]])


class Kinds(Subst):
    """Strings that keep their kind and their bytes."""
    seed = SEED

    def check(self, kind, count):
        """Checks this many documents."""
        with ProcessPoolExecutor() as pool:
            list(pool.map(functools.partial(check_run, kind), range(max(1, round(count / CHUNK)))))

    def test_rows(self):
        for row in rows(TABLE):
            with self.subTest(row.line):
                self.assertEqual(by_subst(row), row.answer)

    def test_random_json(self):
        self.check('json', COUNT / 3)

    def test_random_toml(self):
        self.check('toml', COUNT * 2 / 3)
