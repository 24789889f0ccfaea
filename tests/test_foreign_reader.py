"""Texts of other tools: the rows of tests/data/foreign-texts.tsv, and random ones.

The reader of tests/foreign_reader.py has to return each row's answer, which needs no program. The program has to return
it in each of its ways, and for random texts the answer of the reader.
"""
import contextlib
import json
import os
import random
import re
import shutil
from typing import NamedTuple, Optional

from faults import no_such_variable
from tests import foreign_reader, installed
from tests.foreign_reader import ENVSUBST, FAULT, NOTHING, OWN, SHELL, Fault, Refusal
from tests.subst import Subst, read, subst, write
from tests.support import TOP, Built, Case, as_told
from tests.vectors import decode, read_document, variables_of

TABLE = TOP / 'tests/data/foreign-texts.tsv'
# Choices of names in a row that list none.
ALL, KNOWN = 'all', 'known'
# The number of random texts for each form and choice of names.
TEXTS = int(os.environ.get('TEXTS', 20000))
# The number of files in one run.
CHUNK = 4000
# The options of each form, and of how an unset variable expands, by form.
FORMS = {OWN: [], ENVSUBST: ['--envsubst'], SHELL: ['--shell']}
MISSING = {(OWN, FAULT): [], (ENVSUBST, FAULT): [], (SHELL, FAULT): ['--strict'], (OWN, NOTHING): ['--optional'],
           (ENVSUBST, NOTHING): ['--optional'], (SHELL, NOTHING): []}
ERROR = 'error: '


class Style(NamedTuple):
    """The style of a text: its forms, its choice of names, and how an unset variable expands."""
    forms: str
    names: str
    missing: str

    def arguments(self, variables):
        """Returns the arguments of a run in this style, with these variables."""
        names = {ALL: [], KNOWN: ['--known']}.get(self.names, [f'--only={self.names}'])
        given = [word for name, value in variables.items() for word in (b'-s', name + b'=' + value)]
        return [*FORMS[self.forms], *names, *MISSING[self.forms, self.missing], *(given or ['-f', os.devnull])]

    def in_c(self, variables):
        """Returns the style for C, with the names as pairs."""
        chosen = dict.fromkeys(self.names.encode().split(b','), b'')
        choice, only = {ALL: (0, {}), KNOWN: (2, variables)}.get(self.names, (1, chosen))
        pairs = installed.pairs_of(only)
        return installed.Style(list(FORMS).index(self.forms), choice, self.missing == NOTHING, pairs, len(pairs))

    def answer(self, text, variables):
        """Returns the answer of the reader to a text."""
        chosen = foreign_reader.only(self.names.encode().split(b','))
        names = {ALL: None, KNOWN: foreign_reader.known(variables)}.get(self.names, chosen)
        return foreign_reader.answer(text, self.forms, names, variables, self.missing)


# The table


class Row(NamedTuple):
    """A row of the table: its line number and its columns. The answer is bytes, refused forms or faults."""
    line: int
    text: bytes
    style: Style
    variables: dict
    answer: object


def refusal_of(column):
    form, at = column.split('@')
    return Refusal(int(at), form)


def fault_of(column):
    place, name, *message = column.split('=')
    what, at = place.split('@')
    assert what in ('unset', 'empty'), column
    return Fault(int(at), name.encode(), what == 'empty', b''.join(map(decode, message)))


ANSWERS = {'ok': decode, 'refused': lambda column: list(map(refusal_of, column.split(','))),
           'fault': lambda column: list(map(fault_of, column.split(',')))}


def rows():
    """Yields the rows of the table."""
    for number, line in enumerate(TABLE.read_text(encoding='utf-8').split('\n'), 1):
        if line and not line.startswith('#'):
            text, forms, names, missing, variables, what, expected = line.split('\t')
            yield Row(number, decode(text), Style(forms, names, missing), variables_of(variables),
                      ANSWERS[what](expected))


def first_of(answer):
    """Returns the output of a text, or its first refused form, or the position and the name of its first fault."""
    first = answer if isinstance(answer, bytes) else answer[0]
    return first[:2] if isinstance(first, Fault) else first


def refusal_in_c(position, form):
    return Refusal(position, installed.module().ShellForm(form).name.title().replace('_', ''))


def kept_answer(text, style, variables):
    """Returns what `first_of` does, by the template of a text that C keeps."""
    answer = installed.kept().fill_in_by_style(text, variables, style)
    if isinstance(answer, bytes):
        return answer
    if answer.form:
        return refusal_in_c(answer.position, answer.form)
    return answer.position, text[answer.position:answer.position + answer.length]


# Random texts

# Values by names, without B, _ and A1; and the choices of names.
VALUES = {b'A': b'1', b'x': b'', b'AB': b'$A\\}', b'1': b'one'}
CHOICES = {OWN: ('A,B,x,1', KNOWN), ENVSUBST: (ALL, 'A,B,x,1', KNOWN), SHELL: (ALL, 'A,B,x,1', KNOWN)}
CHARACTERS = '${}:-+?=AB1_\\x'
NAMES = (*'AAAAABBBBBxxxxx', 'AB', '1', 'A1', '_')
# Pieces around a name, and pieces around a text.
SHORT = {OWN: ('$%s', '${%s}', '${%s?}', '${%s', '${%s?', '${%s:-', '${%s=', '\\$%s', '$$%s'),
         ENVSUBST: ('$%s', '${%s}', '${%s', '${%s?}', '${%s:-x}', '\\$%s', '$$%s'),
         SHELL: (*['$%s', '${%s}', '$$%s', '$${%s}', '\\$%s', '${%s:?}', '${%s?}'] * 4, '${%s', '${%s=', '${%s:=x}',
                 '${%s:x}', '${%s#x}', '${%s%%x}', '${%s/x/}', '${%s^}')}
OUTER = {OWN: (*['${%s:'] * 8, '${%s:-', '${%s?', '{%s'), ENVSUBST: ('${%s', '${%s:-', '{%s'),
         SHELL: (*['${%s:-', '${%s-', '${%s:+', '${%s+', '${%s:?', '${%s?'] * 2, '${%s:=', '{%s')}
PLAIN = (*['', ' ', 'x', '-', 'a b', '\n', '\u00e9', '$', '$$', '\\', '{}', '{x}'] * 2, '\\}', '}', '{', '${')
# The most bytes of a text, so that no message is cut in a report.
LONGEST = 80


def some_text(rng, forms, depth=0):
    """Returns joined random pieces, some of which have a text in them."""
    parts = []
    for _ in range(rng.randrange(1, 5)):
        way, name = rng.random(), rng.choice(NAMES)
        if way < 0.3 and depth < 4:
            parts += rng.choice(OUTER[forms]) % name, some_text(rng, forms, depth + 1), '}'
        else:
            parts.append(rng.choice(SHORT[forms]) % name if way < 0.7 else rng.choice(PLAIN))
    return ''.join(parts)


def random_texts(rng, forms, count):
    """Yields hostile texts: a third of the forms, a third of these damaged at one place, and a third of characters."""
    for number in range(count):
        text = some_text(rng, forms)[:LONGEST]
        at = rng.randrange(len(text) + 1)
        damaged = text[:at] + rng.choice(('', *CHARACTERS)) + text[at + (rng.random() < 0.6):]
        characters = ''.join(rng.choices(CHARACTERS, k=rng.randrange(14)))
        yield (text, damaged, characters)[number % 3].encode()


class Reader(Case):
    """The reader, without a program."""

    def test_reader_answers_each_row_so(self):
        self.assertGreaterEqual(len(list(rows())), 130)
        for row in rows():
            self.assertEqual(row.style.answer(row.text, row.variables), row.answer, f'line {row.line}: {row.text}')

    def test_rows_have_each_operator_form_and_choice(self):
        """Each operator with a value, an empty one and none, and each refused form."""
        found = list(rows())
        for operator in (':-', '-', ':+', '+', ':?', '?'):
            for name in 'AEB':
                self.assertTrue(any(b'${%b%b' % (name.encode(), operator.encode()) in row.text for row in found))
        answers = [row.answer for row in found if isinstance(row.answer, list)]
        forms = {refusal.form for answer in answers for refusal in answer if isinstance(refusal, Refusal)}
        others = {foreign_reader.OTHER, foreign_reader.NO_NAME, foreign_reader.UNCLOSED, foreign_reader.BRACE}
        self.assertEqual(forms, {*foreign_reader.REFUSED.values(), *others})
        for forms, choices in CHOICES.items():
            for names in choices:
                is_chosen = names not in (ALL, KNOWN)
                same = [row for row in found if row.style.forms == forms
                        and (row.style.names not in (ALL, KNOWN) if is_chosen else row.style.names == names)]
                self.assertGreaterEqual(len(same), 2, (forms, names))

    def test_random_texts_have_each_kind_of_answer(self):
        for forms, choices in CHOICES.items():
            for names in choices:
                texts = list(random_texts(random.Random(names), forms, 3000))
                answers = [Style(forms, names, FAULT).answer(text, VALUES) for text in texts]
                refused = sum(isinstance(answer, list) and isinstance(answer[0], Refusal) for answer in answers)
                outputs = sum(isinstance(answer, bytes) for answer in answers)
                changed = sum(isinstance(answer, bytes) and answer != text for answer, text in zip(answers, texts))
                faults = len(texts) - refused - outputs
                self.assertTrue(refused > 200 or forms == ENVSUBST, f'{forms} {names}: {refused} are refused')
                self.assertTrue(faults > 100 or names == KNOWN, f'{forms} {names}: {faults} have faults')
                self.assertGreater(changed, 300, f'{forms} {names}')


# The program


class Error(NamedTuple):
    """A reported error: its line and column, and its text, or nothing if any text is right."""
    line: int
    column: int
    text: Optional[str]


def reported(errors, file):
    """Returns the errors that a run reports for a file, in order."""
    found = re.findall(rf'^{re.escape(file)}:(\d+):(\d+): {ERROR}(.*)$', errors.decode(), re.MULTILINE)
    return [Error(int(line), int(column), text) for line, column, text in found]


def expected(text, answer):
    """Returns the errors for a text with this answer. All characters are one column wide."""
    errors = []
    for item in [] if isinstance(answer, bytes) else answer:
        before = text[:item.at]
        column = len(before[before.rfind(b'\n') + 1:].decode(errors='replace')) + 1
        errors.append(Error(before.count(b'\n') + 1, column, text_of(item) if isinstance(item, Fault) else None))
    return errors


def text_of(fault, shown=as_told):
    """Returns the text of the error about an unset or empty variable, with its message as it is shown."""
    name = fault.name.decode()
    message = shown(fault.message.decode(errors='replace'))
    what = f'${name} is empty' if fault.is_empty else no_such_variable(name)
    return f'{what}: {message}' if message else what


def is_reported_so(found, wanted):
    """Returns whether these errors were found: each position, and each text that is known."""
    return len(found) == len(wanted) and all(
        one[:2] == other[:2] and other.text in (None, one.text) for one, other in zip(found, wanted))


class Rows(Subst):
    """Rows of the table, given to the program in every way."""

    def assert_answers(self, row, words, source=b'', file='a', shift=b'', is_text_out=True):
        """Fails unless a run has the row's answer. The shift is the text in front of the row's."""
        end = subst([*row.style.arguments(row.variables), *words], source)
        if isinstance(row.answer, bytes):
            wanted = shift + row.answer if is_text_out else b''
            self.assertEqual((end.status, end.output, reported(end.errors, file)), (0, wanted, []), words)
            return
        errors = expected(shift + row.text, [it._replace(at=it.at + len(shift)) for it in row.answer])
        self.assertEqual((end.status, end.output), (1, b''), words)
        self.assertTrue(is_reported_so(reported(end.errors, file), errors), f'{words}: {end.errors} and not {errors}')

    def assert_wrote(self, row, file, otherwise=None):
        """Fails unless a file has the row's output, or otherwise these bytes, or doesn't exist."""
        wanted = row.answer if isinstance(row.answer, bytes) else otherwise
        self.assertEqual(read(file) if os.path.exists(file) else None, wanted)

    def of_each_text(self, test):
        """Calls a test with each row that is UTF-8, in a file `a`."""
        for row in rows():
            if b'\xff' not in row.text:
                write('a', row.text)
                with self.subTest(line=row.line, text=row.text):
                    test(row)

    def test_rows_of_a_file(self):
        self.of_each_text(lambda row: self.assert_answers(row, ['a']))

    def test_rows_of_standard_input(self):
        def test(row):
            for words in ([], ['-'], ['--compose'] * (row.style.forms == SHELL)):
                self.assert_answers(row, words, row.text, '<stdin>')

        self.of_each_text(test)

    def test_rows_in_documents(self):
        """Each text is a string of a document. Errors have its path, and positions inside its token."""
        def test(row):
            for kind, path, before, after in (('json', '/0', '[', ']'), ('toml', 'a[0]', 'a = [', ']')):
                source = f'{before}{spelled(row.text)}{after}'
                end = subst([f'--{kind}', *row.style.arguments(row.variables)], source.encode())
                if isinstance(row.answer, bytes):
                    self.assert_tree(end, kind, read_document(kind, f'{before}{spelled(row.answer)}{after}'))
                    continue
                wanted = [Error(1, len(before) + len(spelled(row.text[:it.at])),
                                f'{path}: {text_of(it)}' if isinstance(it, Fault) else None)
                          for it in sorted(row.answer, key=lambda it: it.at)]
                found = reported(end.errors, '<stdin>')
                self.assertEqual((end.status, end.output), (1, b''))
                self.assertTrue(is_reported_so(found, wanted), f'{source}: {found} and not {wanted}')

        self.of_each_text(test)

    def test_rows_to_a_file(self):
        def test(row):
            for old in (None, b'old'):
                with contextlib.suppress(FileNotFoundError):
                    os.remove('new')
                if old:
                    write('new', old)
                self.assert_answers(row, ['a', '-o', 'new'], is_text_out=False)
                self.assert_wrote(row, 'new', old)

        self.of_each_text(test)

    def test_rows_to_a_folder(self):
        def test(row):
            write('templates/b', row.text)
            for word, file, new in (('a', 'a', 'out/a'), ('templates', 'templates/b', 'out/b')):
                shutil.rmtree('out', ignore_errors=True)
                self.assert_answers(row, [word, '-O', 'out'], file=file, is_text_out=False)
                self.assert_wrote(row, new)

        os.mkdir('templates')
        self.of_each_text(test)

    def test_rows_in_place(self):
        def test(row):
            self.assert_answers(row, ['-i', 'a'], is_text_out=False)
            self.assert_wrote(row, 'a', row.text)

        self.of_each_text(test)

    def test_rows_that_are_checked(self):
        def test(row):
            self.assert_answers(row, ['--check', 'a'], is_text_out=False)
            self.assertEqual(read('a'), row.text)

        self.of_each_text(test)

    def test_rows_of_bytes(self):
        for row in rows():
            for shift in (b'', b'\xff', b'\xff\n'):
                with self.subTest(line=row.line, text=row.text, shift=shift):
                    self.assert_answers(row, ['--bytes'], shift + row.text, '<stdin>', shift)


def spelled(text):
    """Returns a text in the spelling of JSON and TOML."""
    return json.dumps(text.decode(), ensure_ascii=False)


class Python(Built):
    """Rows of the table, by the package for Python over the library for C."""

    def answer(self, subst, row):
        """Returns the output, or the first refused form or fault, with the text of its error."""
        forms, names, missing = row.style
        choice = {ALL: {}, KNOWN: {'known': True}}.get(names, {'only': names.encode().split(b',')})
        try:
            return subst.fill_in_by_style(row.text, row.variables, forms=subst.Forms[forms.upper()],
                                          optional=missing == NOTHING, **choice)
        except subst.ShellError as error:
            return refusal_in_c(error.position, error.form)
        except subst.SubstError as error:
            return error.position, error.name.encode(), error.message

    def test_rows_in_python(self):
        subst = installed.module()
        for row in rows():
            if '*' not in row.style.names:
                first = row.answer if isinstance(row.answer, bytes) else row.answer[0]
                wanted = (first.at, first.name, text_of(first, str)) if isinstance(first, Fault) else first
                with self.subTest(line=row.line, text=row.text):
                    self.assertEqual(self.answer(subst, row), wanted)

    def test_rows_of_kept_templates(self):
        for row in rows():
            if '*' not in row.style.names:
                with self.subTest(line=row.line, text=row.text):
                    style = row.style.in_c(row.variables)
                    self.assertEqual(kept_answer(row.text, style, row.variables), first_of(row.answer))


class RandomTexts(Subst):
    """Random texts, many files in one run."""

    def compare(self, forms, names):
        """Compares the program with the reader, for both expansions of an unset variable."""
        for number in range(-(-TEXTS // CHUNK)):
            rng = random.Random(f'{self.seed} {forms} {names} {number}')
            files = {str(at): text for at, text in enumerate(random_texts(rng, forms, min(CHUNK, TEXTS)))}
            for file, text in files.items():
                write(file, text)
            for missing in (FAULT, NOTHING):
                style = Style(forms, names, missing)
                answers = {file: style.answer(text, VALUES) for file, text in files.items()}
                self.assert_errors(style, files, answers)
                self.assert_outputs(style, files, answers)
                in_c = style.in_c(VALUES)
                for file, text in files.items():
                    self.assertEqual(kept_answer(text, in_c, VALUES), first_of(answers[file]), f'{style}: {text}')

    def assert_errors(self, style, files, answers):
        """Fails unless a check of all files reports the errors of each, and no others."""
        end = subst([*style.arguments(VALUES), '--check', *files])
        found = {file: [] for file in files}
        for line in end.errors.decode().splitlines(keepends=True):
            found.get(line.partition(':')[0], []).append(line)
        for file, text in files.items():
            came, wanted = reported(''.join(found[file]).encode(), file), expected(text, answers[file])
            self.assertTrue(is_reported_so(came, wanted), f'{style}: {text} has {came} and not {wanted}')
        is_wrong = any(isinstance(answer, list) for answer in answers.values())
        self.assertEqual((end.status, end.output), (int(is_wrong), b''))

    def assert_outputs(self, style, files, answers):
        """Fails unless the files with an output have it in one run. If not, each is run alone."""
        outputs = {file: answer for file, answer in answers.items() if isinstance(answer, bytes)}
        words = style.arguments(VALUES)
        end = subst([*words, *outputs])
        if (end.status, end.output) != (0, b''.join(outputs.values())):
            for file, output in outputs.items():
                with self.subTest(f'{style}: {files[file]}'):
                    self.assertEqual(subst([*words, file])[:2], (0, output))
            self.fail(f'{style}: the files have other outputs together, at status {end.status}: {end.errors[:1000]}')

    def test_own_forms_of_chosen_names(self):
        self.compare(OWN, 'A,B,x,1')

    def test_own_forms_of_known_names(self):
        self.compare(OWN, KNOWN)

    def test_envsubst_of_all_names(self):
        self.compare(ENVSUBST, ALL)

    def test_envsubst_of_chosen_names(self):
        self.compare(ENVSUBST, 'A,B,x,1')

    def test_envsubst_of_known_names(self):
        self.compare(ENVSUBST, KNOWN)

    def test_shell_of_all_names(self):
        self.compare(SHELL, ALL)

    def test_shell_of_chosen_names(self):
        self.compare(SHELL, 'A,B,x,1')

    def test_shell_of_known_names(self):
        self.compare(SHELL, KNOWN)
