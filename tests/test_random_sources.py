"""Answers to random sources: a million, unless COUNT sets another number.

Half of the sources are of the grammar, and half are damaged at one place. Their answers by tests/rules.py, which is
written from the rules of the language, are in rows as in crates/subst_vectors/data: the output, or the fault and its
position; the lists of variables and of missing ones; and of a text the answer to the JSON document of this one string.
The program `subst_vectors` runs each row in every way, and Python each source over the installed library, also parsed
into cells that are then expanded.
`subst_filter` and `subst` run some, also many as one. Before any proof `rt try` runs the first program over the rows of
some sources. The seed is fixed, unless SEED sets another; each failure names it.
"""
import functools
import itertools
import json
import os
import random
import re
from concurrent.futures import ProcessPoolExecutor

from tests import installed
from tests.subst import told_without_line
from tests.support import CRATES, Built, Tried, as_told, ended, run, some_size
from tests.vectors import decode, encode, pairs_column, ruled_answer, ruled_lists

SEED = os.environ.get('SEED', '1')
COUNT = int(os.environ.get('COUNT', 1000000))
# How many sources a file of rows has.
CHUNK = 20000
# How many sources the other programs run.
RUN = 300
# How many pieces sources are joined from, two or three in each; as many again are short ones.
PIECES = 1000
# How many sources `rt try` runs, which takes some milliseconds for each, and the seconds that it may take.
TRIED, TRY_SECONDS = 6000, 600

NAMES = ('a', 'b', 'c', 'd', '9', '_', 'a1', 'none', 'none_2')
# The variables of sources. No name begins with `none`.
VARIABLES = {'a': '1', 'b': '', 'c': '$a\\}', 'd': '${', '9': 'two\nlines', '_': '=', 'a1': ':'}
TEXTS, BYTES = ('\u00e9', '\u2764', '\U0001f600', '\u200b'), ('\xe9', '\xff', '\xc3', '\x9f')
PLAIN = ('', ' ', 'a', 'Z', '0', '_', '-', '\n', ':', '?', '{', '}', '\0', '\r\n', 'word ')
ESCAPES = ('\\\\', '\\$', '\\{', '\\}', '\\:')
# Insertions that damage a source; an empty one removes a character.
DAMAGE = ('', '', '', '$', '$', '${', '${a:', '{', '{', '}', '}', '\\', '\\', ':', '?', '-', 'a', '\n')


# Sources


def is_balanced(text):
    """Returns whether braces are balanced, without those that are escaped."""
    depths = [0, *itertools.accumulate({'{': 1, '}': -1}.get(c, 0) for c in re.sub(r'\\.', '', text))]
    return min(depths) == depths[-1] == 0


def some_pieces(rng, characters):
    """Returns pieces that are templates by themselves: short ones, and defaults that are made of smaller pieces."""
    short = [*PLAIN, *characters, *ESCAPES, *(f'${name}-' for name in NAMES), *(f'${{{name}}}' for name in NAMES),
             *(f'${{{name}?}}' for name in NAMES)]
    pieces = list(short)
    forms = ('${%s:%s}', '${%s:%s}', '${%s:{%s}}', '${%s:$none%s}', '${%s:\\}%s}')
    while len(pieces) < PIECES:
        inner = ''.join(rng.choices(pieces, k=rng.randrange(1, 4)))
        if len(inner) < 20 and is_balanced(inner):
            pieces.append(rng.choice(forms) % (rng.choice(NAMES), inner))
    return pieces + short * (2 * PIECES // len(short))


def sources_of_grammar(rng, characters, count):
    picked = iter(rng.choices(some_pieces(rng, characters), k=3 * count))
    return [first + second if len(second) > 9 else first + second + third
            for first, second, third in zip(picked, picked, picked)]


def damaged_sources(rng, characters, count):
    """Returns such sources, each damaged at one place."""
    damage = DAMAGE + characters

    def damaged(source):
        at = int(rng.random() * (len(source) + 1))
        return source[:at] + rng.choice(damage) + source[at + (rng.random() < 0.6):]

    return [damaged(source) for source in sources_of_grammar(rng, characters, count)]


# Each maker of sources, with their encoding and special characters, and its share in ten.
MAKES = {
    'texts_of_the_grammar': (sources_of_grammar, 'utf-8', TEXTS, 4),
    'damaged_texts': (damaged_sources, 'utf-8', TEXTS, 4),
    'bytes_of_the_grammar': (sources_of_grammar, 'latin-1', BYTES, 1),
    'damaged_bytes': (damaged_sources, 'latin-1', BYTES, 1),
}


def some_sources(name, number, count=CHUNK):
    """Returns the sources of one file, and their variables."""
    make, encoding, characters, _ = MAKES[name]
    variables = {key.encode(): value.encode(encoding) for key, value in VARIABLES.items()}
    variables[b'd'] = characters[0].encode(encoding)
    made = make(random.Random(f'{SEED} {name} {number}'), characters, count)
    return [source.encode(encoding) for source in made], variables


# Rows


def json_column(text):
    """Returns the JSON document of this one string."""
    return encode(json.dumps([text], ensure_ascii=False, separators=(',', ':')).encode())


def answers_by_the_rules(source, variables):
    """Returns the columns of the answer, and of the lists, which only a template has."""
    answer = ruled_answer(source, variables)
    return answer, ruled_lists(source, variables) if answer[0] == 'ok' or answer[1] == 'NoSuchVariable' else None


def rows_of(source, pairs, answer, listed, is_text):
    """Yields the rows of a source by the rules."""
    column = encode(source)
    yield 'bytes', column, pairs, *answer
    if listed:
        yield 'lists', column, pairs, *listed
    if is_text:
        of_document = ['ok', json_column(decode(answer[1]).decode())] if answer[0] == 'ok' else answer
        yield 'json', json_column(source.decode()), pairs, *of_document


def write_rows(file, sources, variables, answers):
    """Writes the rows of sources to a file. Returns the output of `subst_vectors` if they hold."""
    is_text = MAKES[file.partition('.')[0]][1] == 'utf-8'
    pairs = pairs_column(variables)
    rows = [row for source, answer in zip(sources, answers) for row in rows_of(source, pairs, *answer, is_text)]
    with open(file, 'w', encoding='utf-8') as opened:
        opened.writelines('\t'.join(row) + '\n' for row in rows)
    return f'{file}: {len(rows)} rows hold\n'


# Comparing


def expect_same(name, source, came, wanted):
    """Fails unless the first columns of an answer are these."""
    assert came[:max(2, len(wanted))] == wanted, \
        f'{name}, source {encode(source)}\n    gives   {came}\n    and not {wanted}'


def compare_file(name, number):
    """Compares the program's and the library's answers to the sources of one file with the rules."""
    sources, variables = some_sources(name, number)
    answers = [answers_by_the_rules(source, variables) for source in sources]
    file = f'{name}.{number}.tsv'
    hold = write_rows(file, sources, variables, answers)
    end = run('subst_vectors', [file])
    os.remove(file)
    assert (end.status, end.output.decode()) == (0, hold), f'{end.output.decode()[:2000]}{end.errors.decode()}'
    module = installed.module()
    for source, (answer, listed) in zip(sources, answers):
        expect_same(name, source, installed.answer(module, source, variables), answer)
        expect_same(name, source, installed.lists(module, source, variables), listed or answer)
        expect_same(name, source, installed.answer(installed.kept(), source, variables), answer)
        expect_same(name, source, installed.first_uses(source), [installed.firsts(listed[0])] if listed else answer)


class Unproved(Tried):
    """Sources whose rows the program runs under `rt try`."""
    seed = SEED

    def test_6000_sources_by_rt_try(self):
        holds, data = {}, []
        for name, (*_, share) in MAKES.items():
            sources, variables = some_sources(name, 'try', TRIED * share // 10)
            file = f'{name}.tsv'
            holds[file] = write_rows(file, sources, variables, [answers_by_the_rules(it, variables) for it in sources])
            data += ['--data', f'{file}={os.path.abspath(file)}']
        end = ended(['rt', 'try', '--seconds', str(TRY_SECONDS), *data, '--', *holds], cwd=CRATES / 'subst_vectors',
                    timeout=None)
        self.assertEqual(end.returncode, 0, end.stdout[:5000])
        for hold in holds.values():
            self.assertIn(hold, end.stdout)


class Sources(Built):
    """Sources for the library and all programs."""
    programs = 'subst_filter', 'subst_cli', 'subst_vectors'
    seed = SEED

    @classmethod
    def setUpClass(cls):
        super().setUpClass()
        cls.module = installed.module()

    def compare(self, name):
        """Compares the answers to the sources of all files of a name."""
        files = max(1, round(COUNT * MAKES[name][3] / 10 / CHUNK))
        with ProcessPoolExecutor() as pool:
            list(pool.map(functools.partial(compare_file, name), range(files)))

    def test_texts_of_the_grammar(self):
        self.compare('texts_of_the_grammar')

    def test_damaged_texts(self):
        self.compare('damaged_texts')

    def test_bytes_of_the_grammar(self):
        self.compare('bytes_of_the_grammar')

    def test_damaged_bytes(self):
        self.compare('damaged_bytes')

    def test_programs_end_as_the_library_says(self):
        """The filter with each first argument, and `subst` on some texts, half of them damaged."""
        for name in ('texts_of_the_grammar', 'damaged_texts'):
            sources, variables = some_sources(name, 'run', RUN // 2)
            texts = {name.decode(): value.decode() for name, value in variables.items()}
            for source in sources:
                try:
                    output, error = self.module.fill_in(source.decode(), texts).encode(), None
                except self.module.SubstError as refused:
                    output, error = b'', refused
                with self.subTest(encode(source)):
                    self.assert_filter_ends(source, variables, output, error)
                    self.assert_subst_ends(source, variables, output, error)

    def test_programs_fill_in_large_texts(self):
        """Many texts in one, repeated up to a random size."""
        sources, variables = some_sources('texts_of_the_grammar', 'large')
        variables.update({b'none': b'$a', b'none_2': b''})
        source, times = b''.join(sources), some_size(1, 100)
        output = decode(ruled_answer(source, variables)[1])
        self.assert_filter_ends(times * source, variables, times * output, None)
        self.assert_subst_ends(times * source, variables, times * output, None)

    def assert_filter_ends(self, source, variables, output, error):
        words = [name + b'=' + value for name, value in variables.items()]
        for word in (['bytes', *words], ['text', *words], ['env']):
            errors = f'subst: {error.message}\n{"" if word[0] == "bytes" else error.highlighting}' if error else ''
            end = run('subst_filter', word, source, env=variables)
            self.assert_ends(end, 1 if error else 0, output, errors.encode())

    def assert_subst_ends(self, source, variables, output, error):
        """Only the first line of the messages is compared: the position and the text of the first fault."""
        words = [word for name, value in variables.items() for word in (b'-s', name + b'=' + value)]
        end = run('subst_cli', words, source, name='subst')
        first = told_without_line(f'<stdin>:{error.line}:{error.column}', as_told(error.message)) if error else b''
        self.assert_ends(end._replace(errors=end.errors[:len(first) or None]), 1 if error else 0, output, first)
