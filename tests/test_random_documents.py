"""Random documents, as inputs of `subst`: 100,000, unless COUNT sets another number.

Half of the documents are JSON, and half TOML: small ones, and a few that are deep or wide, with strings in all
spellings, comments and white space, equal keys, and numbers and dates in all forms. Their strings are templates. The
output of `subst` has the same bytes around the strings and in those that stay; each other string is what the rules say.
As a whole, Python's readers read it as the document with its strings filled in. The program `subst_vectors` fills in
each document by its tree and in place. Then each document gets a fault at one place, and `subst --check` has to report
this one alone, at its line and column. The seed is fixed, unless SEED sets another; a failure names it with the
document.
"""
import functools
import itertools
import os
import random
import re
import unicodedata
from concurrent.futures import ProcessPoolExecutor

import faults
from tests import rules
from tests.support import Built, assert_ends, run
from tests.vectors import encode, pairs_column, read_document, text_of_tree

SEED = os.environ.get('SEED', '1')
COUNT = int(os.environ.get('COUNT', 100000))
# How many documents a run has.
CHUNK = 1000
# How many spellings of strings the documents are made from.
TOKENS = 3000
VALUE = '$a"\\\n\u00e9'
# Each fault, with the index of its first character, and its text.
FAULTS = (
    ('${none}', 2, faults.no_such_variable('none')),
    ('$none_2-', 1, faults.no_such_variable('none_2')),
    ('$-', 0, faults.missing_name()),
    ('${-', 0, faults.missing_name()),
    ('${a!}', 3, faults.unexpected("'!'")),
    ('${a:', 1, faults.missing_brace()),
    ('\\z', 0, faults.invalid_escape('z')),
)

# Strings

# Marks where a fault can be put into a string, by the string's quotes, and marks of the ends of its token.
IN_JSON, IN_BASIC, IN_LITERAL = '\ufdd0\ufdd1\ufdd2'
MARK = re.compile('[\ufdd0-\ufdd2]')
BEGIN, END = '\ufdd6\ufdd7'
NOT_SOURCE = re.compile('[\ufdd0-\ufdd2\ufdd6\ufdd7]')
TOKEN = re.compile(f'{BEGIN}(.*?){END}', re.DOTALL)
# A string in the spelling of a writer.
STRING = re.compile('"""(?:[^\\\\]|\\\\.)*?"{3,5}(?!")|\'{3}.*?\'{3,5}(?!\')|"(?:[^"\\\\]|\\\\.)*"|\'[^\']*\'', re.DOTALL)
NEW_ESCAPE = re.compile(r'\\(x[0-9A-Fa-f]{2}|.)', re.DOTALL)
# A text for the program, and another one for Python's reader, which doesn't know TOML 1.1.
EITHER = re.compile('\ufdd3(.*?)\ufdd4(.*?)\ufdd5', re.DOTALL)
PLAIN = 'abz09 _-.,:;#=[]()/?~\u00e9\u0416\u20ac\u4e2d\U0001f600\u200b'
# Templates that can be joined with any other.
PARTS = (*PLAIN, *PLAIN, '${a}', '${a:b}', '$a-', '${none:c}', '${none?}', '{}', '\\$', '\\\\', '\\}', '\\:')
# Characters at the limits of lengths in bytes and units, and others.
SPELLED_BY_NUMBER = 'a"\x00\x1f\x1b\x7f\x80\u07ff\u0800\u20ac\ud7ff\ue000\u2028\uffff\U00010000\U0010ffff'
ESCAPES = {'"': '"', '\\': '\\', '\b': 'b', '\f': 'f', '\n': 'n', '\r': 'r', '\t': 't'}


def either(new, old):
    return f'\ufdd3{new}\ufdd4{old}\ufdd5'


def for_program(text):
    return EITHER.sub(r'\1', text)


def for_python(text):
    return EITHER.sub(r'\2', text)


def cased(rng, digits):
    return rng.choice((digits, digits.upper(), digits.capitalize()))


def is_raw(c, others=''):
    """Returns whether a string may have a character unescaped."""
    return c in PLAIN or c in others or (' ' <= c < '\x7f' and c not in '"\\')


def in_json(rng, c):
    """Returns a spelling of a character."""
    units = c.encode('utf-16-be').hex()
    ways = [''.join('\\u' + cased(rng, units[at:at + 4]) for at in range(0, len(units), 4))]
    if c in ESCAPES or c == '/':
        ways += 2 * ['\\' + ESCAPES.get(c, c)]
    return rng.choice([*ways, *(6 * [c] if is_raw(c, '\u2028\x7f') else [])])


def in_basic(rng, c):
    number = f'{ord(c):x}'
    ways = ['\\' + letter + cased(rng, number.zfill(width)) for letter, width in (('u', 4), ('U', 8))
            if len(number) <= width]
    new = ['\\x' + cased(rng, number.zfill(2))] if len(number) <= 2 else []
    new += ['\\e'] if c == '\x1b' else []
    ways += [either(way, ways[0]) for way in new]
    if c in ESCAPES:
        ways += 2 * ['\\' + ESCAPES[c]]
    return rng.choice([*ways, *(6 * [c] if is_raw(c, '\t') else [])])


def in_literal(_, c):
    return c


SPELLINGS = {IN_JSON: in_json, IN_BASIC: in_basic, IN_LITERAL: in_literal}


def spelled(rng, mark, text):
    return ''.join(SPELLINGS[mark](rng, c) for c in text)


def some_parts(rng, mark, *pools):
    """Returns parts of a string as pairs of a spelling and a text. The pools have such pairs."""
    others = '"' if mark == IN_LITERAL else '"\'' + SPELLED_BY_NUMBER + ''.join(ESCAPES).replace('\\', '')
    made = [rng.choice(rng.choice((PARTS, PARTS, others, *pools))) for _ in range(rng.choice((0, 1, 1, 2, 2, 3, 4)))]
    return [part if isinstance(part, tuple) else (spelled(rng, mark, part), part) for part in made]


def token_of(quotes, mark, parts):
    """Returns the spelling of a string with its marks, and the string."""
    spelling = mark.join([quotes, *(spelling for spelling, _ in parts), quotes])
    return BEGIN + spelling + END, ''.join(text for _, text in parts)


def without_marks(text):
    return NOT_SOURCE.sub('', text)


# JSON

JSON_SPACE = ('', '', '', '', ' ', ' ', '\n', '\t', '\r\n  ', '  ')
JSON_OTHER = ('0', '-1', '-0', '1.50', '1.5e+3', '1E40', '0.1e-7', 'true', 'false', 'null', '12345678901',
              '123456789012345678901234567890')


def json_token(rng):
    return token_of('"', IN_JSON, some_parts(rng, IN_JSON))


def json_list(rng, brackets, texts):
    """Returns texts between brackets, with commas and white space."""
    spaced = ','.join(rng.choice(JSON_SPACE) + text + rng.choice(JSON_SPACE) for text in texts)
    return brackets[0] + (spaced or rng.choice(JSON_SPACE)) + brackets[1]


def json_object(rng, keys, values):
    """Returns an object with these values, some under equal keys."""
    return json_list(rng, '{}', [
        rng.choice(keys) + rng.choice(JSON_SPACE) + ':' + rng.choice(JSON_SPACE) + value for value in values])


def json_value(rng, tokens, keys, depth):
    pick = rng.random()
    if depth == 0 or pick < 0.5:
        return rng.choice(tokens) if pick < 0.4 or depth else rng.choice(JSON_OTHER)
    values = [json_value(rng, tokens, keys, depth - 1) for _ in range(rng.choice((0, 1, 1, 2, 2, 3)))]
    return json_list(rng, '[]', values) if pick < 0.7 else json_object(rng, keys, values)


def json_documents(rng, count):
    made = [json_token(rng) for _ in range(TOKENS)]
    tokens = [token for token, _ in made]
    # There are few keys, so that some come twice, and in other spellings.
    keys = [(without_marks(token), key) for token, key in made]
    keys = [token for token, _ in [it for it in keys if len(it[1]) == 1][:60] + keys[:20]]
    for number in range(count):
        if number % 500 == 0:
            text = json_list(rng, '[]', [json_value(rng, tokens, keys, 0) for _ in range(100)])
        elif number % 500 == 1:
            text = 50 * '{"a":[' + rng.choice(tokens) + 50 * ']}'
        else:
            values = [json_value(rng, tokens, keys, 2) for _ in range(rng.randrange(1, 4))]
            text = json_list(rng, '[]', values) if number % 3 else json_object(rng, keys, values)
        yield rng.choice(JSON_SPACE) + text + rng.choice(JSON_SPACE)


# TOML

NEWLINES = (('\n', '\n'), ('\r\n', '\r\n'))
CONTINUED = tuple((text, '') for text in ('\\\n', '\\\r\n', '\\  \n\n  ', '\\\n \t', '\\\t\r\n\n '))
TOML_OTHER = ('0', '+1_000', '0xFF', '0o17', '0b1_0', '1.5e+3', '1.50', '-0.0', '-inf', '+nan', 'true', 'false', '1979-05-27',
              '1979-05-27T07:32:00.5-07:00', '1979-05-27 07:32:60Z', '1979-05-27t07:32:00', '07:32:00', '07:32:00.999999999')
# White space in a line, at the end of one, and in an array.
IN_LINE = ('', ' ', ' ', '  ', '\t')
LINE_ENDS = ('\n', '\n', '\n', '\r\n', ' # "a" = \'b\'\n', '#\r\n', '\n\n', '\n# [a]\n\n', '\t\n')
IN_ARRAY = ('', '', ' ', ' ', '\n', '\r\n ', ' # "], }\n', '\n\n#\n\t')
BARE = ('a', 'b', 'c', '1', 'a-b', '_', 'true', '07')


def multi_line_parts(rng, quote, mark):
    pools = [NEWLINES, [(quote, quote), (2 * quote, 2 * quote)], *([CONTINUED] if quote == '"' else [])]
    parts = [(rng.choice(('', '', '\n', '\r\n')), '')]
    for part in some_parts(rng, mark, *pools):
        before = parts[-1]
        # Here three quotes would end the string. Blanks after a backslash at the end of a line are dropped, and so is
        # the first newline.
        is_blank = not before[1] and part[0].strip(' \t\r\n') == ''
        if is_blank or part[0][0] == quote == before[0][:1]:
            parts.append(('n', 'n'))
        parts.append(part)
    return parts


def toml_token(rng):
    quote, mark = rng.choice((('"', IN_BASIC), ("'", IN_LITERAL)))
    if rng.random() < 0.5:
        return token_of(3 * quote, mark, multi_line_parts(rng, quote, mark))
    return token_of(quote, mark, some_parts(rng, mark))


def toml_keys(rng, made):
    """Returns keys, each with several spellings: bare ones, and strings of one line."""
    keys = {key: [key, f'"{key}"', f"'{key}'", f'"\\u{ord(key[0]):04x}{key[1:]}"'] for key in BARE}
    for token, key in made:
        if not without_marks(token).startswith(('"""', "'''")):
            keys.setdefault(key, []).append(without_marks(token))
    picked = rng.sample(list(keys), 40)
    return {key: keys[key] for key in dict.fromkeys([*BARE, *picked])}


class Toml:
    """A maker of TOML documents."""

    def __init__(self, rng):
        made = [toml_token(rng) for _ in range(TOKENS)]
        self.rng = rng
        self.tokens = [token for token, _ in made]
        self.keys = toml_keys(rng, made)
        self.names = list(self.keys)

    def dotted(self, path):
        """Returns a dotted key of these parts."""
        rng = self.rng
        texts = [rng.choice(self.keys[key]) for key in path]
        dots = [rng.choice(('.', '.', ' . ', '.\t')) for _ in texts[1:]]
        return ''.join(itertools.chain.from_iterable(zip(texts, [*dots, ''])))

    def value(self, depth):
        pick = self.rng.random()
        if depth == 0 or pick < 0.7:
            return self.rng.choice(self.tokens if pick < 0.55 or depth else TOML_OTHER)
        return self.array(depth, self.rng.randrange(4)) if pick < 0.85 else self.inline(depth)

    def space(self, brackets):
        """Returns white space and comments between brackets. Between braces these are of TOML 1.1."""
        text = self.rng.choice(IN_ARRAY)
        return either(text, '') if brackets == '{}' else text

    def between(self, brackets, texts):
        """Returns texts between brackets, with commas, white space and comments."""
        spaced = [self.space(brackets) + text + self.space(brackets) for text in texts]
        comma = (',' if brackets == '[]' else either(',', '')) if texts and self.rng.random() < 0.3 else ''
        return brackets[0] + ','.join(spaced) + comma + self.space(brackets) + brackets[1]

    def array(self, depth, count):
        return self.between('[]', [self.value(depth - 1) for _ in range(count)])

    def inline(self, depth):
        return self.between('{}', self.pairs(self.rng.sample(self.names, self.rng.randrange(4)), depth - 1))

    def pair(self, path, depth):
        rng = self.rng
        return self.dotted(path) + rng.choice(IN_LINE) + '=' + rng.choice(IN_LINE) + self.value(depth)

    def pairs(self, names, depth):
        """Returns pairs under these names. Some names are dotted: they have one or two pairs each, in any order."""
        paths = []
        for name in names:
            below = self.rng.sample(self.names, self.rng.choice((0, 0, 0, 1, 2)))
            paths += [[name, *([key] if self.rng.random() < 0.7 else [key, name])] for key in below] or [[name]]
        self.rng.shuffle(paths)
        return [self.pair(path, depth) for path in paths]

    def section(self, header, names):
        """Returns a header with pairs under it."""
        rng = self.rng
        return ''.join(rng.choice(IN_LINE) + line + rng.choice(LINE_ENDS)
                       for line in [*([header] if header else []), *self.pairs(names, 2)])

    def header(self, path, brackets):
        return brackets + self.rng.choice(IN_LINE) + self.dotted(path) + self.rng.choice(IN_LINE) + ']' * len(brackets)

    def table(self, path, depth):
        """Returns the sections of a table and its children, which may come before it, and between those of others."""
        names = self.rng.sample(self.names, self.rng.randrange(1, 4))
        pairs, below = names[:1], names[1:] if depth else []
        own = self.section(path and self.header(path, '['), pairs)
        blocks = [self.below([*path, name], depth - 1) for name in below]
        # The pairs at the top of a document have no header, so they come first.
        return [own, *self.merged(blocks)] if not path else self.merged([[own], *blocks])

    def below(self, path, depth):
        return self.table(path, depth) if self.rng.random() < 0.6 else self.tables(path, depth)

    def tables(self, path, depth):
        """Returns the sections of an array of tables, each element's own before those below it."""
        sections = []
        for _ in range(self.rng.randrange(1, 4)):
            names = self.rng.sample(self.names, self.rng.randrange(0, 3))
            sections.append(self.section(self.header(path, '[['), names[:1]))
            sections += self.merged([self.below([*path, name], depth - 1) for name in names[1:] if depth])
        return sections

    def merged(self, blocks):
        """Merges the sections of blocks, and keeps the order of each block."""
        left, sections = [block[::-1] for block in blocks], []
        while left := [block for block in left if block]:
            sections.append(self.rng.choice(left).pop())
        return sections

    def document(self, number):
        if number % 500 == 0:
            return f'a={self.array(1, 60)}\n'
        if number % 500 == 1:
            return f'a={35 * "[{a="}{self.rng.choice(self.tokens)}{35 * "}]"}\n'
        sections = self.table([], self.rng.choice((0, 1, 1, 2)))
        return self.rng.choice(('', '', '', '\ufeff', '\n', '# "a"\r\n')) + ''.join(sections)


def toml_documents(rng, count):
    maker = Toml(rng)
    return (maker.document(number) for number in range(count))


# Each kind of document: its maker, and a document with another output than all of these.
KINDS = {
    'json': (json_documents, '"the end of a document"\n'),
    'toml': (toml_documents, 'the = "end of a document"\n'),
}


# Faults


def width(c):
    """Returns the columns of a character."""
    return 0 if c in '\u200b\ufeff' else 2 if unicodedata.east_asian_width(c) in 'WF' else 1


def place(before):
    """Returns the line and the column after a text."""
    lines = re.split('\r\n|\r|\n', before)
    return f'{len(lines)}:{1 + sum(map(width, lines[-1]))}'


def with_fault(rng, text):
    """Returns a document with a fault in one string, the fault's position and its text, or None without a string."""
    marks = list(MARK.finditer(text))
    if not marks:
        return None
    mark, (fault, at, what) = rng.choice(marks), rng.choice(FAULTS)
    parts = (text[:mark.start()] + spelled(rng, mark[0], fault[:at]),
             spelled(rng, mark[0], fault[at:]) + text[mark.end():])
    before, after = (without_marks(for_program(part)) for part in parts)
    return before + after, place(before), what


# Tests


def write_files(folder, texts):
    for number, text in enumerate(texts):
        with open(os.path.join(folder, str(number)), 'w', encoding='utf-8', newline='') as file:
            file.write(text)


def subst(folder, kind, words):
    """Runs the program on files of a folder."""
    return run('subst_cli', [f'--{kind}', '-s', f'a={VALUE}', *words], name='subst', cwd=folder)


def outputs_of(folder, kind, texts):
    """Returns the program's outputs for documents."""
    end_of_document = KINDS[kind][1]
    write_files(folder, [without_marks(for_program(text)) for text in texts])
    with open(os.path.join(folder, 'end'), 'w', encoding='utf-8') as file:
        file.write(end_of_document)
    end = subst(folder, kind, [file for number in range(len(texts)) for file in (str(number), 'end')])
    assert_ends(end._replace(output=b''), 0)
    outputs = end.output.decode().split(end_of_document)[:-1]
    assert len(outputs) == len(texts), f'{len(texts)} documents have {len(outputs)} outputs'
    return outputs


def filled(tree):
    return rules.filled(tree, {b'a': VALUE.encode()})


def string_of(kind, token):
    """Returns the string that a token spells, by Python's reader."""
    return read_document('json', token) if kind == 'json' else read_document('toml', f's = {token}')['s']


def folded(string):
    """Returns the string with one newline for each line end."""
    return re.sub('\r+\n', '\n', string)


def known_escapes(token):
    """Returns a token with escapes that Python's reader knows in place of those of TOML 1.1."""
    def known(escape):
        return {'x': f'\\u00{escape[0][2:]}', 'e': '\\u001b'}.get(escape[1][0], escape[0])

    return NEW_ESCAPE.sub(known, token) if token[0] == '"' else token


def spliced(kind, text, output):
    """Checks that an output has the bytes of a document, except the tokens of strings that change. Returns it as
    Python's reader can read it."""
    at, readable = 0, []
    for number, piece in enumerate(TOKEN.split(text)):
        wanted, known = (without_marks(of(piece)) for of in (for_program, for_python))
        string = folded(string_of(kind, known)) if number % 2 else ''
        if filled(string) != string:
            token, value = STRING.match(output, at), folded(filled(string))
            known = known_escapes(token[0]) if token else ''
            assert token and folded(string_of(kind, known)) == value, f'{wanted!r} gives {output[at:at + 99]!r}'
            wanted = token[0]
        assert output.startswith(wanted, at), f'in the place of {wanted!r} is {output[at:at + 99]!r}'
        at += len(wanted)
        readable.append(known)
    assert at == len(output), f'after the end is {output[at:at + 99]!r}'
    return ''.join(readable)


def check_output(kind, text, output):
    """Checks the output of a document, by its strings and as a whole."""
    try:
        output = spliced(kind, text, output)
        wanted = filled(read_document(kind, without_marks(for_python(text))))
        is_wanted = text_of_tree(read_document(kind, output)) == text_of_tree(wanted)
    except (ValueError, AssertionError) as error:
        raise AssertionError(f'{without_marks(text)!r} gives {output!r}: {error}') from error
    assert is_wanted, f'{without_marks(text)!r} gives {output!r} and not {wanted!r}'


def check_in_every_way(file, kind, texts, outputs):
    """Checks that the program `subst_vectors` fills in documents to these outputs in every way."""
    pairs = pairs_column({b'a': VALUE.encode()})
    with open(file, 'w', encoding='utf-8') as rows:
        for text, output in zip(texts, outputs):
            source = without_marks(for_program(text))
            rows.write('\t'.join((f'{kind}_text', encode(source.encode()), pairs, 'ok', encode(output.encode()))) + '\n')
    end = run('subst_vectors', [file])
    os.remove(file)
    assert_ends(end, 0, f'{file}: {len(texts)} rows hold\n'.encode())


def check_faults(folder, kind, documents):
    """Checks the reported positions of faults of documents."""
    write_files(folder, [text for text, _, _ in documents])
    end = subst(folder, kind, ['--check', *map(str, range(len(documents)))])
    assert_ends(end._replace(errors=b''), 1)
    messages = [line for line in end.errors.decode().split('\n') if line and not line.startswith('  ')]
    for number, (text, at, what) in enumerate(documents):
        message = messages[number] if number < len(messages) else 'nothing'
        assert message.startswith(f'{number}:{at}: error: ') and message.endswith(what), \
            f'{text!r} has a fault at {at}, {what}, and what is reported is {message}'
    assert len(messages) == len(documents), f'{len(documents)} faults are reported as {len(messages)}'


def check_chunk(kind, number):
    """Checks the documents of one run."""
    rng, folder = random.Random(f'{SEED} {kind} {number}'), f'{kind}_{number}'
    texts = list(KINDS[kind][0](rng, CHUNK))
    os.mkdir(folder)
    try:
        outputs = outputs_of(folder, kind, texts)
        for text, output in zip(texts, outputs):
            check_output(kind, text, output)
        check_in_every_way(f'{folder}.tsv', kind, texts, outputs)
        check_faults(folder, kind, list(filter(None, (with_fault(rng, text) for text in texts))))
    except AssertionError as wrong:
        raise AssertionError(f'{folder}: {wrong}') from wrong


class Documents(Built):
    """Documents of each kind."""
    programs = 'subst_cli', 'subst_vectors'
    seed = SEED

    def check(self, kind):
        """Checks the documents of a kind, run by run."""
        with ProcessPoolExecutor() as pool:
            list(pool.map(functools.partial(check_chunk, kind), range(max(1, round(COUNT / CHUNK / len(KINDS))))))

    def test_documents_of_json(self):
        self.check('json')

    def test_documents_of_toml(self):
        self.check('toml')
