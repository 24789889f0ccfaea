"""Letters of `subst --rows`: one template, filled in for each row of a table or each object of JSON Lines.

20,000 random rows, or COUNT, in tables of 50 are compared with a second implementation: Python's csv and json read the
tables, and tests/rules.py fills in the template. The seed is fixed, unless SEED sets another; a failure names it.
"""
import csv
import errno
import io
import json
import os
import random
import re
import tempfile
from concurrent.futures import ProcessPoolExecutor

from faults import no_such_variable
from tests import rules
from tests.subst import NO_NAME, PROGRAM, Subst, failed, subst, told, write
from tests.support import MIB, run_with_hints, some_size

SEED, COUNT = os.environ.get('SEED', '1'), int(os.environ.get('COUNT', 20000))
# How many rows a random table has, how many faults a run prints, and how many missing variables it reports of a row.
CHUNK, MOST, OF_A_ROW = 50, 20, 1
DELIMITERS, MARK = {'csv': ',', 'tsv': '\t'}, '\ufeff'
# Tables, and the outputs of `$a|$b` for their rows. In the TSV a tab replaces each comma.
TABLES = (
    ('a,b\n1,2\n', '1|2'), ('a,b\n\n1,2\n\r\n', '1|2'), ('b,a\n1,2\n3,4\n', '2|1', '4|3'), ('a,b\n',), ('a,b',),
    (f'{MARK}a,b\r\n1,2\r\n3,4\r\n', '1|2', '3|4'), (f'{MARK}"a","b"\n1,2', '1|2'), ('a,b\r1,2\r3,4', '1|2', '3|4'),
    ('a,b\n"x, y","say ""hi"""\n', 'x, y|say "hi"'), ('a,b\n"1\n2\r\n3\r4",5\n6,7', '1\n2\r\n3\r4|5', '6|7'),
    ('a,b\n1"2,3""\n', '1"2|3""'), ('a,b\n "1",2 \n', ' "1"|2 '), ('a,b\n"1"2"3",""4\n', '12"3"|4'),
    ('a,b\n,\n"", \n', '|', '| '), ('a,b\n$b,"${a:}\\"\n', '$b|${a:}\\'), ('a,b\n\u00e9,\u2028\x0b\n', '\u00e9|\u2028\x0b'),
    ('a,First Name,b,,,a-b,a-b\n1,2,3,4,5,6,7\n', '1|3'), ('"x\ny",b,a\n1,2,3\n', '3|2'), ("a,b\n'1,2'\n", "'1|2'"),
)
# The same of JSON Lines.
LINES = (
    ('{"a":true,"b":false}\n', 'true|false'), (' \t{"a" : "" , "b":"$a\\\\"} \r\n', '|$a\\'), ('',), ('\n \t\r\n\n',),
    ('{"a": "1", "b": "2"}\n{"b":4,"a":3}', '1|2', '3|4'), (f'{MARK}{{"a":1,"b":2}}', '1|2'),
    ('{"a":1.50,"b":-0}\n{"a":1E400,"b":12345678901234567890}', '1.50|-0', '1E400|12345678901234567890'),
    ('{"a":"\\u00e9\\ud83d\\ude00","b":"\\n\\"\\/\u2028"}', '\u00e9\U0001f600|\n"/\u2028'),
    ('\n{"a":1,"b":2,"c":null,"d":[1,{"d":[]}],"First Name":"x"}\n\r\n{"\\u0061":3,"b":4}\n\n', '1|2', '3|4'),
)
# Refused tables, what --keep-going writes of each for `$a|$b `, or None if the whole table is refused, and the faults.
CELLS, NESTED = 'row has {}, but the head has {}', 'value of ${} is an array or an object; use --nested json'
TWICE, QUOTE, UTF8 = 'name occurs twice in the head: ', "quote isn't closed", 'invalid UTF-8'
REFUSED = (
    ('csv', '', None, (1, 'no head')), ('tsv', MARK, None, (1, 'no head')), ('tsv', 'b\ta\tb\n', None, (1, TWICE + 'b')),
    ('csv', 'a,b,a\n1,2,3\n', None, (1, TWICE + 'a')), ('csv', 'a,b\n1,2\n3,"4\n5,6\n', None, (3, QUOTE)),
    ('csv', 'a,"b\n1,2\n', None, (1, QUOTE)), ('tsv', 'a\tb\n1\t"2""\n', None, (2, QUOTE)),
    ('csv', 'a,b\n"1\n2",3\n4,"', None, (4, QUOTE)), ('csv', b'a,b\n1,2\n3,\xff\n5,6\n', None, (3, UTF8)),
    ('tsv', b'a\t\xc3\n1\t2\n', None, (1, UTF8)),
    ('csv', 'a,b\n1,2\n3\n4,5,6\n7,8\n', '1|2 7|8 ', (3, CELLS.format('1 cell', '2 names')), (4, CELLS.format('3 cells', '2 names'))),
    ('tsv', 'a\tb\tc\r\n"1\n"\t2\t\r\n3\t4\r\n', '1\n|2 ', (4, CELLS.format('2 cells', '3 names'))),
    ('jsonl', b'{"a":1,"b":2}\n{"a":1\n\n[1]\n{"a":"\xff","b":1}\n{"a":1,"b":2,"\\u0061":3}\n"x"\n{"b":4,"a":3}', '1|2 3|4 ',
     (2, 'not JSON'), (4, 'not a JSON object'), (5, UTF8), (6, 'key occurs twice'), (7, 'not a JSON object')),
    ('jsonl', '{"a":[1],"b":1}\n{"a":1,"b":{}}\n{"a":3,"b":4,"c":[1]}\n', '3|4 ', *enumerate(map(NESTED.format, 'ab'), 1)),
    ('jsonl', '{"a":1}x\n{\'a\':1}\n{"a":01,"b":1}\n{"a":NaN,"b":1}\n{"a":1,"b":2,}\n{"a":"\t","b":1}\n{"a":1}{"b":2}', '',
     *enumerate(['not JSON'] * 7, 1)),
)
# Arguments that --rows excludes, or that are wrong with it.
WRONG = ('-i', '-O out', '--names', '--escape json', '--escape sh', '--json', '--toml', '--yaml', '--auto', '--format json',
         '--format text', '--only a', '--envsubst', '--known -e', '--shell -e', '--compose -e', '--strict --check', '-',
         '--envsubst --optional', '--strip .txt', 'letter.txt', '--rows-format xml', '--nested xml', '-o new --check')


def heads(end):
    """Returns the messages of a run, without lines of the template."""
    return re.findall('^(?!  ).+', end.errors.decode(), re.MULTILINE)


def unset(name, place):
    return f'letter.txt:{place}: error: {no_such_variable(name)}'


class Rows(Subst):
    """Tables, rows of which some are refused, and arguments."""
    seed = SEED

    def letters(self, table, *words, kind='csv', letter='$a|$b'):
        """Runs over a table, in the file `people` with the ending of its kind. Returns how the run ended."""
        for name, text in (('letter.txt', letter), (f'people.{kind}', table)):
            write(name, text if isinstance(text, bytes) else text.encode())
        return subst(['--rows', f'people.{kind}', *words, 'letter.txt'])

    def assert_written(self, table, output, *words, **options):
        self.assert_ends(self.letters(table, *words, **options), 0, output.encode())

    def assert_rows_refused(self, end, *messages, output=''):
        self.assertEqual((end.status, end.output.decode(), heads(end)), (1, output, list(messages)))

    def assert_nothing_written(self, messages, table, *words, **options):
        """Fails the test unless a run refuses a table, to standard output, to a new and an old file, and to check it."""
        write('old', b'kept')
        for more in ([], ['-o', 'new'], ['-o', 'old'], ['--check']):
            self.assert_rows_refused(self.letters(table, *words, *more, **options), *messages)
        self.assertFalse(os.path.exists('new'))
        self.assert_file('old', b'kept')

    def test_tables(self):
        for tables, kind, delimiter in ((TABLES, 'csv', ','), (TABLES, 'tsv', '\t'), (LINES, 'jsonl', ',')):
            for text, *outputs in tables:
                table, wanted = (it.replace(',', delimiter) for it in (text, ';'.join(outputs)))
                with self.subTest(table):
                    self.assert_written(table, wanted, '--separator=;', kind=kind)

    def test_nested(self):
        for text, wanted in (('[1, "x y", {"k" : null}]', '[1,"x y",{"k":null}]'), ('{ }', '{}'), ('"x y"', 'x y'),
                             ('{"k": "a: b, c"}', '{"k":"a: b, c"}'), ('[[ ], true]', '[[],true]'), ('1.0', '1.0')):
            self.assert_written(f'{{"a":{text}}}', wanted, '--nested', 'json', kind='jsonl', letter='$a')

    def test_format_of_another_ending(self):
        write('letter.txt', b'$a;')
        for kind, table in (('csv', b'a,b\n1,2\n'), ('tsv', b'a\tb\n1\t2\n'), ('jsonl', b'{"a":1}\n')):
            for name in ('people.txt', 'people', 'people.csv', 'people.tsv', 'people.jsonl'):
                write(name, table)
                self.assert_done(['--rows', name, '--rows-format', kind, 'letter.txt'], output=b'1;')
            self.assert_done(['--rows', '-', f'--rows-format={kind}', 'letter.txt'], table, b'1;')

    def test_large(self):
        long, count = 'x"\n' * some_size(MIB // 3, 8 * MIB), some_size(10000, 100000)
        table = 'a,b\n"{}",\n'.format(long.replace('"', '""')) + ''.join(f'{row},{row}\r\n' for row in range(count))
        self.assert_written(table, f'{long}|' + ''.join(f'{row}|{row}' for row in range(count)))
        line = 3 + long.count('\n') + count
        self.assert_rows_refused(self.letters(table + '0\n'), f'people.csv:{line}: error: {CELLS.format("1 cell", "2 names")}')

    def test_separator(self):
        for text in ('', ' ', '\n', '\\n', '--\n', '$a', '\u00e9'):
            for table, wanted in (('a\n1\n2\n3\n', text.join('123')), ('a\n1\n', '1'), ('a\n', '')):
                self.assert_written(table, wanted, f'--separator={text}', letter='$a')

    def test_output(self):
        self.assert_written('a,b\n1,2\n3,4\n', '', '-o', 'new', letter='$a|$b\n')
        self.assert_file('new', b'1|2\n3|4\n')
        self.assert_written('a,b\n5,6\n', '', '-o', 'new', '--separator', 'x')
        self.assert_file('new', b'5|6')
        self.assert_written('a,b\n5,6\n', '', '--check')
        self.assert_written('a,b\n1,2\n', '1', '--bytes', letter='$a')
        self.assert_ends(self.letters('a\n1\n2\n', '--bytes', letter=b'\xff$a'), 0, b'\xff1\xff2')
        self.assertEqual(self.letters('a\n1\n', letter=b'\xff$a')[:2], (1, b''))

    def test_standard_input(self):
        self.assert_written('a\n1\n2\n', '1;2;', letter='$a;')
        for more in ([], ['-']):
            self.assert_done(['--rows', 'people.csv', *more], b'$a;', b'1;2;')
        for table, message in ((b'b\n1\n', '2: ' + unset('a', '1:2')), (b'a\n1\n"', f'3: error: {QUOTE}')):
            end = subst(['--rows', '-', '--rows-format', 'csv', 'letter.txt'], table)
            self.assert_rows_refused(end, f'<stdin>:{message}')

    def test_wrong_arguments(self):
        self.assert_written('a,b\n1,2\n', '1|2')
        for words in (*(f'people.csv letter.txt {word}' for word in WRONG), '- letter.txt', '- --rows-format csv',
                      '- --rows-format csv -', '- --rows-format csv -f - letter.txt', 'people.txt letter.txt', 'people'):
            end = subst(['--rows', *words.split()], b'a\n1\n')
            self.assertEqual((end.status, end.output, end.errors[:14]), (2, b'', b'subst: error: '), words)
            self.assert_files('letter.txt', 'people.csv')

    def test_precedence(self):
        for name, text in (('values', 'A=values'), ('file', 'file'), ('shop.env', 'A=dotenv'), ('defaults', 'A=defaults'),
                           ('letter.txt', '[${A:own}]')):
            write(name, text.encode())
        sources = ((['-sA=set'], 'set'), (['--set-file', 'A=file'], 'file'), ([], 'row'), (['-f', 'values'], 'values'),
                   (['-e'], 'environment'), (['--dotenv', 'shop.env'], 'dotenv'), (['--default', 'A=default'], 'default'),
                   (['--defaults', 'defaults'], 'defaults'), ([], 'own'))
        with_row = (('csv', 'A,B\nrow,1\n', []), ('jsonl', '{"A":"row"}', ['--no-empty']))
        without_row = (('csv', 'B\n1\n', []), ('tsv', 'B\tA\n1\t\n', ['--no-empty']), ('csv', 'A\n""\n', ['--no-empty']),
                       ('jsonl', '{}', []), ('jsonl', '{"A":null}', []), ('jsonl', '{"A":""}', ['--no-empty']))
        for first in range(len(sources)):
            for kind, table, more in with_row if first <= 2 else without_row:
                write(f'people.{kind}', table.encode())
                words = [word for options, _ in reversed(sources[first:]) for word in options]
                self.assert_done(['--rows', f'people.{kind}', *words, *more, 'letter.txt'], b'',
                                 f'[{sources[first][1]}]'.encode(), env={'A': 'environment'})
        self.assert_written('A\n""\n', '[]', '-fvalues', letter='[${A:own}]')

    def test_refused_tables(self):
        for kind, table, good, *faults in REFUSED:
            messages = [f'people.{kind}:{line}: error: {text}' for line, text in faults]
            with self.subTest(table):
                self.assert_nothing_written(messages, table, kind=kind)
                end = self.letters(table, '--keep-going', kind=kind, letter='$a|$b ')
                self.assert_rows_refused(end, *messages, output=good or '')
                if good is None:
                    self.assert_nothing_written(messages, table, '--keep-going', kind=kind)

    def test_missing_variables(self):
        letter, table = 'Dear $name,\n${a:$b}\n- $street ${name}', 'name,b\n"Ann\nLee",1\nBob,2\n,3\n'
        streets = [f'people.csv:{line}: {unset("street", "3:4")}' for line in (2, 4, 5)]
        names, words = [f'people.csv:5: {unset("name", place)}' for place in ('1:7', '3:13')], ['--no-empty', '-sstreet=x']
        self.assert_nothing_written(streets, table, letter=letter)
        row = [names[0], streets[2], names[1]][:OF_A_ROW]
        self.assert_nothing_written([*streets[:2], *row], table, '--no-empty', letter=letter)
        self.assert_nothing_written(names[:OF_A_ROW], table, *words, letter=letter)
        end = self.letters(table, *words, '--keep-going', '--separator=;', letter=letter)
        self.assert_rows_refused(end, *names[:OF_A_ROW], output='Dear Ann\nLee,\n1\n- x Ann\nLee;Dear Bob,\n2\n- x Bob')
        messages = [f'people.jsonl:{line}: {unset("a", "1:4")}' for line in (3, 5)]
        for table in ('\n{"a":1}\n{"a":null}\n\n{}', '\n{"b":1,"a":2}\n{"b":3}\n\n{"A":1}'):
            self.assert_nothing_written(messages, table, kind='jsonl', letter='<${a}>')

    def test_many_faults(self):
        for count in (MOST, MOST + 2, MOST + 13, some_size(100, 10000)):
            table = 'a,b\n1,2\n3\n' + ',4\n' * (count - 1) + '5,6\n'
            texts = 'error: ' + CELLS.format('1 cell', '2 names'), *[unset('a', '1:2')] * (MOST - 1)
            messages = [f'people.csv:{line}: {text}' for line, text in enumerate(texts, 3)]
            messages += [f'people.csv: error: {count - MOST} more errors'] * (count > MOST)
            self.assert_nothing_written(messages, table, '--no-empty')
            self.assert_rows_refused(self.letters(table, '--no-empty', '--keep-going', '-o', 'good'), *messages)
            self.assert_file('good', b'1|25|6')

    def test_template(self):
        message = told('letter.txt:2:1', NO_NAME, '$', '^')
        for table in ('a\n1\n2\n', 'a\n1,2\n"', ''):
            for words in ([], ['--keep-going'], ['--check'], ['-o', 'new']):
                self.assert_ends(self.letters(table, *words, letter='$b\n$'), 1, errors=message)
        self.assert_files('letter.txt', 'people.csv')

    def test_files_that_fail(self):
        self.assert_written('a\n1\n', '1', letter='$a')
        for words, name in ((['none.csv', 'letter.txt'], 'none.csv'), (['people.csv', 'none.txt'], 'none.txt')):
            self.assert_failed(['--rows', *words], failed(name, errno.ENOENT))
        with open('/dev/full', 'wb') as full:
            self.assert_failed(['--rows=people.csv', 'letter.txt'], failed('<stdout>', errno.ENOSPC), stdout=full)

    def test_hints(self):
        write('letter.txt', b'$name $adress')
        for table, more, status, found in (
                ('name,address\nAnn,x\n', [], 1, {'adress', 'address'}), ('name,adress\nA,x\n', [], 0, set()),
                ('name,adress,x,y\nAnn,x,,\n', [], 0, {'x, y'}), ('name\nA', ['-sadress=x'], 0, set())):
            write('people.csv', table.encode())
            end = run_with_hints(PROGRAM, ['--rows', 'people.csv', *more, 'letter.txt'], name='subst')
            hints = ' '.join(re.findall('^.*hint:.*$', end.errors.decode(), re.MULTILINE))
            self.assertEqual((end.status, bool(hints)), (status, bool(found)), hints)
            self.assertEqual([word for word in found if word not in hints], [], hints)

    def test_random_tables(self):
        with ProcessPoolExecutor() as pool:
            list(pool.map(check_table, range(max(1, COUNT // CHUNK))))


# The second implementation


def rows_of_table(data, kind):
    """Yields the line on which each row begins, and its cells by name or what is wrong with it."""
    reader = csv.reader(io.StringIO(data.decode('utf-8-sig'), newline=''), delimiter=DELIMITERS[kind])
    names, line = next(reader), reader.line_num + 1
    for cells in reader:
        counts = (f'{len(it)} {word}{"s" * (len(it) != 1)}' for it, word in ((cells, 'cell'), (names, 'name')))
        if cells:
            yield line, dict(zip(names, cells)) if len(cells) == len(names) else CELLS.format(*counts)
        line = reader.line_num + 1


def row_of_line(text):
    """Returns the values of a line of JSON by name, or what is wrong with it."""
    try:
        row = json.loads(text, parse_int=str, parse_float=str, object_pairs_hook=lambda pairs: dict(pairs) if len(
            dict(pairs)) == len(pairs) else {}['twice'])
    except KeyError:
        return 'key occurs twice'
    except ValueError:
        return 'not JSON'
    return 'not a JSON object' if not isinstance(row, dict) else {
        name: value if isinstance(value, str) else json.dumps(value, separators=(',', ':'))
        for name, value in row.items() if value is not None}


def expected(letter, rows, layers, is_without_empty):
    """Returns the outputs and the faults of rows. The first layer of values comes before a row, the others after it."""
    items, outputs, faults = rules.template(letter), [], []
    for line, row in rows:
        if isinstance(row, str):
            faults.append(f'{line}: error: {row}')
            continue
        values = {name.encode(): value.encode() for layer in (*layers[:0:-1], row, layers[0])
                  for name, value in layer.items() if value or not is_without_empty}
        missing = [entry.split(b'=') for entry in rules.missing_entries(items, values)]
        for at, name in missing[:OF_A_ROW]:
            before = letter[:int(at)].decode().split('\n')
            faults.append(f'{line}: {unset(name.decode(), f"{len(before)}:{len(before[-1]) + 1}")}')
        outputs += [b''.join(rules.values(items, values))] if not missing else []
    return outputs, faults


# Names of columns, the last of which no template can spell; pieces of cells and templates; values and lines of JSON.
NAMES, OTHERS = ('a', 'b', 'name', 'x_1', '7', 'A'), ('First Name', 'a-b', '\u00e9', '')
PIECES = ('', 'x', ' ', ',', '"', '""', "'", '\n', '\r\n', '\r', '\t', '\u00e9', '\u6f22', '$a', '${b:', '\\', '\u2028')
FORMS = '$%s.', '${%s}', '${%s?}', '\n', '\\$\\\\', '{x} ', '\u00e9,'
PLAIN, TREES = (None, True, False, 12, -0.5, 1e300), ([], {}, ['x y', {'k': [None, True]}], {'a': 'b, c: d'})
BROKEN = '[1]', '1', '{"a":1', '{"a":1,}', '{"a":1,"b":2,"\\u0061":3}', 'x'


def drawn_letter(rng, depth=2):
    parts = [rng.choice(FORMS).replace('%s', rng.choice(NAMES)) for _ in range(rng.randrange(1, 5))]
    return ''.join([*parts, f'${{{rng.choice(NAMES)}:{drawn_letter(rng, depth - 1)}}}'] if depth else parts)


def drawn_cell(rng):
    return ''.join(rng.choices(PIECES, k=rng.randrange(4)))


def drawn_row(rng, cells, delimiter):
    """Returns a row of a table. Some cells have quotes that they don't need, or text after their quotes."""
    def spelled(cell):
        has_quotes = cell[:1] == '"' or set(cell) & {delimiter, '\r', '\n'} or rng.random() < 0.3
        return '"' + cell.replace('"', '""') + '"' + rng.choice(('', '', 'x"y')) if has_quotes else cell
    return delimiter.join(map(spelled, cells)) or '""'


def drawn_object(rng, names, values):
    row = {name: rng.choice((drawn_cell(rng), rng.choice(values))) for name in names if rng.random() < 0.9}
    row['unused'] = rng.choice(TREES)
    return rng.choice(('', '', '\n', ' \r\n')) + json.dumps(row, ensure_ascii=rng.random() < 0.5)


def drawn_table(rng, kind, is_whole, is_nested):
    """Returns a table in which, unless it is whole, a tenth of the rows are wrong."""
    names = [*rng.sample(NAMES, rng.randrange(1, 6)), *rng.choices(OTHERS, k=rng.randrange(3))]
    wrong, delimiter = [not is_whole and rng.random() < 0.1 for _ in range(CHUNK)], DELIMITERS.get(kind)
    if delimiter is None:
        lines = [rng.choice(BROKEN) if it else drawn_object(rng, names, PLAIN + TREES * is_nested) for it in wrong]
    else:
        rows = ([drawn_cell(rng) for _ in range(len(names) + it * rng.choice((-1, 1, 2)))] for it in wrong)
        lines = [drawn_row(rng, row, delimiter) for row in (names, *rows)]
    ends = rng.choice((['\n'], ['\r\n'], ['\n', '\r\n', '\r\n\n'], ['\n', '\r', '\r\r'] if delimiter else ['\n']))
    parts = rng.choice(('', MARK)), *(line + rng.choice(ends) for line in lines), rng.choice(('', lines[-1]))
    return ''.join(parts).encode()


def check_table(number):
    """Compares the run over a random table with the second implementation."""
    rng = random.Random(f'{SEED} {number}')
    kind, (is_whole, is_nested, *flags) = rng.choice((*DELIMITERS, 'jsonl')), rng.choices((False, True), k=4)
    letter, table = drawn_letter(rng).encode(), drawn_table(rng, kind, is_whole, is_nested)
    layers = [{name: rng.choice(('', option)) for name in NAMES if rng.random() < 0.15} for option in ('set', 'f', 'e')]
    layers.append({name: 'default' for name in NAMES if is_whole or rng.random() < 0.3})
    sets, values, _, defaults = ([f'{name}={value}' for name, value in layer.items()] for layer in layers)
    folder, separator = tempfile.mkdtemp(dir='.'), rng.choice(('', '\n', '--', '\u00e9'))
    for name, data in (('letter.txt', letter), (f'people.{kind}', table), ('values', '\n'.join(values).encode())):
        write(f'{folder}/{name}', data)
    words = [word for word, it in zip(('--no-empty', '--keep-going', '--nested=json'), (*flags, is_nested)) if it]
    words += [*(f'--set={it}' for it in sets), *(f'--default={it}' for it in defaults), f'--separator={separator}']
    end = subst(['--rows', f'people.{kind}', '-efvalues', *words, 'letter.txt'], cwd=folder, env=layers[2])
    lines = enumerate(table.decode('utf-8-sig').split('\n'), 1)
    objects = ((line, row_of_line(text)) for line, text in lines if text.strip())
    outputs, faults = expected(letter, objects if kind == 'jsonl' else rows_of_table(table, kind), layers, flags[0])
    messages = [f'people.{kind}:{it}' for it in faults]
    messages[MOST:] = [f'people.{kind}: error: {len(faults) - MOST} more errors'] * (len(faults) > MOST)
    wanted = bool(faults), separator.encode().join(outputs) if flags[1] or not faults else b'', messages
    found = end.status, end.output, [re.sub(' more error$', ' more errors', line) for line in heads(end)]
    for one, other in zip(found, wanted):
        assert one == other, f'table {number} in {folder} with {words}: {one!r:.999} and not {other!r:.999}'
