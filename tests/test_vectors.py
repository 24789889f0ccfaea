"""Answers to each row of crates/subst_vectors/data, in each column.

The program `subst_vectors` runs each row in every way, here unproved. The installed module for Python calls the
installed library for C with each row of bytes and of lists, and with each that is a text once more as a text. Each row
of bytes is parsed into cells, and expanded from them; for a row of lists, first uses are compared. The program `subst`
fills in each document; its output is the row's text, or Python's readers read it back. The rows are compared with
tests/rules.py too. For a row that differs, the other answer is printed.
"""
import functools
from concurrent.futures import ThreadPoolExecutor

import faults
from tests import installed, rules
from tests.support import CRATES, Built, Case, Tried, as_told, ran, run, shown
from tests.vectors import (decode, encode, is_text, read_document, rows, ruled_answer, ruled_fault, ruled_lists,
                           text_of_tree, tree_of_row)

FILES = ('answers.tsv', 'rows.tsv', 'variables.tsv')
# The most differing rows that a test prints.
MOST_PRINTED = 20
# The columns of a fault's expectation and of its text.
EXPECTED, DISPLAY = 4, 5
# The Rust crate's words for what may follow a name in braces.
AFTER_NAME_IN_RUST = "a closing brace ('}') or colon (':')"


def rows_of(name):
    """Yields the rows of a file, with the Rust crate's words replaced by this library's."""
    words = AFTER_NAME_IN_RUST, faults.expected_after_name()
    for row in rows(name):
        yield row._replace(answer=[column.replace(*words) if at in (EXPECTED, DISPLAY) else column
                                   for at, column in enumerate(row.answer)])


# Answers to a row, as columns


def by_bytes(module, row):
    ask = installed.lists if row.kind == 'lists' else installed.answer
    return ask(module, row.source, row.variables)


def by_texts(module, row):
    ask = installed.lists if row.kind == 'lists' else installed.answer
    return ask(module, row.source.decode(), texts_of(row))


def by_cells(row):
    if row.kind == 'bytes':
        return installed.answer(installed.kept(), row.source, row.variables)
    came = installed.first_uses(row.source)
    return row.answer if came == [installed.firsts(row.answer[0])] else came


def texts_of(row):
    return {name.decode(): value.decode() for name, value in row.variables.items()}


def in_place_by_library(module, row):
    """Returns the library's answer; for a fault its case, as its position is in a string in the row."""
    kind = row.kind.partition('_')[0]
    try:
        text = getattr(module, f'fill_in_{kind}')(row.source.decode(), texts_of(row))
        return ['ok', encode(text.encode())]
    except module.DocumentError:
        return ['refused', kind.title()]
    except module.SubstError as error:
        return ['fault', error.kind.name.title().replace('_', '')]


def by_the_rules(row):
    """Returns the answer by the rules; for a fault its case and position. They don't cover unreadable documents."""
    if row.kind == 'bytes':
        return ruled_answer(row.source, row.variables)
    if row.kind == 'lists':
        return ruled_lists(row.source, row.variables)
    if row.answer[0] == 'refused':
        return row.answer
    try:
        tree = rules.filled(read_document(row.kind, row.source.decode()), row.variables)
    except rules.Refused as refused:
        return ruled_fault(refused)
    return of_tree(row, tree)


def of_tree(row, tree):
    """Returns the answer for a tree."""
    is_same = row.answer[0] == 'ok' and text_of_tree(tree) == text_of_tree(tree_of_row(row))
    return row.answer if is_same else ['ok', repr(tree)]


def by_subst(row):
    """Returns the program's answer. A fault's text has to be among those of all strings."""
    words = [word for name, value in row.variables.items() for word in (b'-s', name + b'=' + value)]
    kind, _, of_text = row.kind.partition('_')
    end = run('subst_cli', [f'--{kind}', *words], row.source, name='subst')
    if end.status == 0 and not end.errors:
        return ['ok', encode(end.output)] if of_text else of_tree(row, read_document(kind, end.output.decode()))
    texts = [line for line in end.errors.decode().splitlines() if line.startswith('<stdin>:')]
    text = as_told(decode(row.answer[DISPLAY]).decode()) if row.answer[0] == 'fault' else ''
    if (end.status, end.output) == (1, b'') and row.answer[0] != 'ok' and any(it.endswith(text) for it in texts):
        return row.answer
    return [str(end.status), shown(end.output), *texts]


# Tests


def is_of_library(row):
    return row.kind in ('bytes', 'lists')


def is_text_of_library(row):
    return is_of_library(row) and is_text(row)


def is_in_place(row):
    # For TOML the rows have the first fault of the tree, and the library the first of the text.
    is_picked = row.kind in ('json_text', 'toml_text') and (row.kind, row.answer[0]) != ('toml_text', 'fault')
    return is_picked and is_text(row)


def is_json_of_subst(row):
    # The program skips a byte order mark, which the reader of JSON refuses.
    return row.kind.startswith('json') and row.source[:3] != b'\xef\xbb\xbf'


class Rows(Case):
    """Tests of all rows."""

    def compare(self, is_picked, came_for):
        """Fails the test unless each picked row has this answer, or the answer begins with it."""
        for name in FILES:
            picked, wrong = list(filter(is_picked, rows_of(name))), []
            for row in picked:
                came = came_for(row)
                if came != row.answer[:max(len(came), 2)]:
                    asked, wanted = ' '.join(row.line.split('\t')[:3]), ' '.join(row.answer)
                    wrong.append(f'{row.place}: {asked}\n    expected {wanted}\n    came     {" ".join(came)}')
            with self.subTest(name):
                self.assertFalse(wrong, '\n'.join([f'{len(wrong)} of {len(picked)} differ', *wrong[:MOST_PRINTED]]))


class ByTheRules(Rows):
    """Rows by tests/rules.py."""

    def test_bytes_and_lists_by_the_rules(self):
        self.compare(is_of_library, by_the_rules)

    def test_json_by_the_rules(self):
        self.compare(lambda row: row.kind == 'json', by_the_rules)

    def test_toml_by_the_rules(self):
        self.compare(lambda row: row.kind == 'toml', by_the_rules)


class ByTheLibrary(Rows, Built):
    """Rows by the library for C, through the module for Python."""

    @classmethod
    def setUpClass(cls):
        super().setUpClass()
        cls.module = installed.module()

    def test_bytes_by_the_library(self):
        self.compare(is_of_library, functools.partial(by_bytes, self.module))

    def test_bytes_by_cells(self):
        self.compare(is_of_library, by_cells)

    def test_texts_by_the_library(self):
        self.compare(is_text_of_library, functools.partial(by_texts, self.module))

    def test_documents_in_place_by_the_library(self):
        self.compare(is_in_place, functools.partial(in_place_by_library, self.module))


class BySubst(Rows, Built):
    """Rows by the program `subst`."""
    programs = 'subst_cli',

    def test_json_by_subst(self):
        self.compare(is_json_of_subst, by_subst)

    def test_toml_by_subst(self):
        self.compare(lambda row: row.kind.startswith('toml'), by_subst)


# Runs of `rt try`, each with its crate: the program over all rows, and the functions that are tests.
TRIED = {
    'rows': ('subst_vectors', '--seconds', '300', '--', *(f'data/{name}' for name in FILES)),
    'functions of subst_tests': ('subst_tests', '--seconds', '600', '--test'),
    'functions of subst_filter': ('subst_filter', '--seconds', '600', '--test'),
}


class Unproved(Tried):
    """Runs of `rt try`, side by side."""

    @classmethod
    def setUpClass(cls):
        pool = ThreadPoolExecutor()
        cls.addClassCleanup(pool.shutdown)
        cls.runs = {name: pool.submit(ran, ['rt', 'try', *words], cwd=CRATES / crate, timeout=None)
                    for name, (crate, *words) in TRIED.items()}

    def test_rows_hold(self):
        output = self.runs['rows'].result()
        for name in FILES:
            self.assertRegex(output, rf'data/{name}: \d+ rows hold\n')

    def test_functions_that_are_tests_pass(self):
        for name in TRIED:
            with self.subTest(name):
                self.runs[name].result()
