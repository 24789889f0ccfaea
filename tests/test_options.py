"""The options of `subst` that set variables or change their values."""
import errno
import json
import os
import subprocess

from tests.subst import PROGRAM, UNREADABLE, Subst, failed, missing, subst, told, told_without_line, write
from tests.support import MIB, some_size, with_entries

READ_ONCE = "standard input can be read only once; if values are read from it, name the files to fill in"
# Arguments of --set, a source, and its output.
SETS = (
    (['-sA=1'], '$A', '1'),
    (['-s', 'A=1'], '$A', '1'),
    (['--set=A=1'], '$A', '1'),
    (['--set', 'A=1'], '$A', '1'),
    (['-sA=1', '-sB=2', '--set=A=3'], '$A$B', '32'),
    (['-sA=b=c'], '$A', 'b=c'),
    (['-sA='], '[$A${A:d}]', '[]'),
    (['-sA=$B', '-sB=1'], '$A ${A}', '$B $B'),
    (['-sA=-x'], '$A', '-x'),
    (['-s0_a=\n \u00e4'], '$0_a', '\n \u00e4'),
    ([], '${A:d}${A?}', 'd'),
)
VALUES = (b'\xef\xbb\xbfA=1\r\n'
          b'\n'
          b'  # B=none\n'
          b'\t B= "2" # $A \\n\t \n'
          b' \t\r\n'
          b'C=\n'
          b'#D=none\r\n'
          b"D='a=b'=\r\r\n"
          b'A=\xc3\xa4')
# Refused values files, with their message.
WRONG_VALUES = (
    (b'A=1\nB\nC', told_without_line('values:2:1', "missing '='")),
    (b'\n  A B \r\n', told_without_line('values:2:3', "missing '='")),
    (b'KEY=-----BEGIN KEY-----\nhunter2\n', told_without_line('values:2:1', "missing '='")),
    (b'KEY=-----BEGIN KEY-----\nhunter+2==\n', told_without_line('values:2:1', 'not a variable name')),
    (b'A B=1', told_without_line('values:1:1', 'not a variable name')),
    (b'my-key=hunter2', told_without_line('values:1:1', 'not a variable name')),
    (b'\tA =1', told_without_line('values:1:2', 'not a variable name')),
    (b'export A=1', told_without_line('values:1:1', 'not a variable name')),
    (b'=1', told_without_line('values:1:1', 'not a variable name')),
    ('\u6f22=1'.encode(), told_without_line('values:1:1', 'not a variable name')),
    (b'A=1\nB=hunter2\xff', told_without_line('values:2:10', 'invalid UTF-8')),
)


class Variables(Subst):
    """Variables of arguments, of files and of the environment."""

    def test_set(self):
        for words, source, output in SETS:
            self.assert_done(words, source.encode(), output.encode())

    def test_set_of_no_variable(self):
        for words, number in ((['-sA'], 1), (['--set='], 1), (['-sA=1', '-s', 'hunter2', '-sB'], 2)):
            self.assert_wrong(words, f"no '=' in argument {number} of --set")
        for name in ('', 'a b', 'a-b', '\u00e4', '$A', ' A', 'A '):
            text = f"'{name}' of --set is not a variable name"
            for value in ('hunter2', 'a=b'):
                self.assert_wrong(['--set', f'{name}={value}'], text)
        for word, value in (('-s', '--set <NAME=VALUE>'), ('--values', '--values <FILE>'), ('--only', '--only <NAMES>'),
                            ('-o', '--output <FILE>')):
            text = f"subst: error: a value is required for '{value}' but none was supplied\n\n"
            self.assert_ends(subst([word]), 2, errors=(text + "For more information, try '--help'.\n").encode())

    def test_set_is_shown_without_control_characters(self):
        self.assert_wrong(['--set', 'a\x1b=1'], "'a\\u{1b}' of --set is not a variable name")

    def test_values(self):
        write('values', VALUES)
        for words in (['-fvalues'], ['-f', 'values'], ['--values=values'], ['--values', 'values']):
            self.assert_done(words, b'[$A][$B][$C][$D]', b'[\xc3\xa4][ "2" # $A \\n\t ][][\'a=b\'=\r]')
        write('empty', b'')
        self.assert_done(['-f', 'empty'], b'${A:d}', b'd')
        # A line ends at the end of the file as it does before a line feed.
        for text in (b'A=1\r', b'A=1\r\n', b'A=1\n', b'A=1'):
            write('one', text)
            self.assert_done(['-f', 'one'], b'[$A]', b'[1]')

    def test_values_of_standard_input_and_of_several_files(self):
        write('one', b'A=1\nB=1\n')
        write('two', b'B=2\nC=2\nC=3\n')
        write('template', b'$A $B $C\n')
        self.assert_done(['-f', 'one', '-f', 'two', 'template'], output=b'1 2 3\n')
        self.assert_done(['-f', 'two', '-f', 'one', 'template'], output=b'1 1 3\n')
        self.assert_done(['-f', '-', 'template', '-f', 'two'], b'A=9', b'9 2 3\n')
        for words in ([], ['-'], ['template', '-'], ['template', '-f', '-'], ['-o', 'one']):
            self.assert_wrong(['-f', '-', *words], READ_ONCE, source=b'A=9')
        self.assert_file('one', b'A=1\nB=1\n')

    def test_standard_input_under_its_other_names(self):
        write('template', b'$A')
        for name in ('/dev/stdin', '/dev/fd/0', '/proc/self/fd/0'):
            self.assert_done(['-f', name, 'template'], b'A=9', b'9')
            for words in (['-f', name], ['-f', name, '-'], ['-f', '-', name], ['-f', '-', '-f', name, 'template'],
                          ['-f', name, '-o', 'template']):
                self.assert_wrong(words, READ_ONCE, source=b'A=9')
        self.assert_file('template', b'$A')

    def test_values_that_are_refused(self):
        for values, message in WRONG_VALUES:
            write('values', values)
            self.assert_refused(['-f', 'values'], b'$none', message)
            self.assert_refused(['-f', 'values', '-f', 'values'], b'$none', message, message)
            self.assert_refused(['-i', '-f', 'values', 'nothing'], b'', message)
        self.assert_refused(['-f', '-', 'values'], b'A', told_without_line('<stdin>:1:1', "missing '='"))

    def test_values_that_cannot_be_read(self):
        self.assert_failed(['-f', 'nothing'], failed('nothing', errno.ENOENT), source=b'$none')
        write('values', b'A')
        errors = failed('nothing', errno.ENOENT) + told_without_line('values:1:1', "missing '='")
        self.assert_failed(['-f', 'values', '-f', 'nothing'], errors, source=b'$none')

    def test_env(self):
        env = {b'A': b'1', b'B': b'', b'a-b': b'2', '\u00e4'.encode(): b'3', b'BAD': b'\xff', b'\xff': b'\xff',
               b'L': b'x' * 10000}
        for word in ('-e', '--env'):
            self.assert_done([word], b'$A[${B:d}] ${L}', b'1[] ' + env[b'L'], env=env)
        self.assert_refused([], b'$A', missing('A', '<stdin>:1:2', '$A', ' ^'), env=env)

    def test_env_that_is_not_utf8(self):
        env, what = {b'BAD': b'\xff'}, f'{UNREADABLE}BAD'
        self.assert_done(['-e', '-sBAD=1'], b'$BAD', b'1', env=env)
        self.assert_refused(['-e'], b'$A ${BAD?} $B', missing('A', '<stdin>:1:2', '$A ${BAD?} $B', ' ^'),
                            told('<stdin>:1:6', what, '$A ${BAD?} $B', '     ^^^'),
                            missing('B', '<stdin>:1:13', '$A ${BAD?} $B', '            ^'), env=env)
        self.assert_refused(['-e'], b'${A:\n $BAD}', told('<stdin>:2:3', what, ' $BAD}', '  ^^^'), env=env)
        self.assert_refused(['-e', '--bytes'], b'\xff$BAD', told('<stdin>:1:3', what, '\ufffd$BAD', '  ^^^'), env=env)
        self.assert_refused(['-e', '--json'], b'["", "$BAD"]',
                            told('<stdin>:1:8', f'/1: {what}', '["", "$BAD"]', '       ^^^'), env=env)
        self.assert_done(['-e', '--names'], b'$BAD', b'BAD\t<stdin>:1:2\trequired\n', env=env)

    def test_entries_of_one_name(self):
        for entries in ([b'A=1', b'A=2'], [b'A=1', b'A=\xff'], [b'A=1', b'A=\xff', b'A=2']):
            self.assert_done([], b'$A', b'1', **with_entries(PROGRAM, [b'subst', b'-e'], entries))
        for entries in ([b'A=\xff', b'A=1'], [b'A=\xff', b'A=\xff', b'A=1']):
            self.assert_refused([], b'$A', told('<stdin>:1:2', f'{UNREADABLE}A', '$A', ' ^'),
                                **with_entries(PROGRAM, [b'subst', b'-e'], entries))

    def test_many_values_that_are_not_utf8(self):
        names = [f'n{number}' for number in range(some_size(1000, 16000))]
        source = ' '.join(f'${name}' for name in names).encode()
        end = subst(['-e'], source, env={name.encode(): b'\xff' for name in names})
        heads = [line for line in end.errors.splitlines() if line.startswith(b'<stdin>:')]
        self.assertTrue(end.status == 1 and len(heads) == len(names), f'{end.status}, {len(heads)} faults')

    def test_set_comes_before_values_and_these_before_the_environment(self):
        write('values', b'A=values\nB=values\n')
        env = {'A': 'env', 'B': 'env', 'C': 'env'}
        for words in (['-e', '-f', 'values', '-sA=set'], ['-sA=set', '-f', 'values', '-e']):
            self.assert_done(words, b'$A $B $C', b'set values env', env=env)


def make_secrets():
    """Makes a folder like a mounted secret of Kubernetes: the names lead through a link to the folder of the day."""
    os.makedirs('secrets/..2026')
    os.symlink('..2026', 'secrets/..data')
    for name, value in (('USER', b'ann'), ('PASSWORD', b'hunter2\n'), ('tls.crt', b'\xff')):
        write(f'secrets/..2026/{name}', value)
        os.symlink(f'..data/{name}', f'secrets/{name}')


# Contents of files of a value, and their values.
LINE_ENDS = ((b'', b''), (b'a', b'a'), (b'a\n', b'a'), (b'a\r\n', b'a'), (b'a\n\n', b'a\n'), (b'a\r\n\r\n', b'a\r\n'),
             (b'\n', b''), (b'\r\n', b''), (b'\r', b'\r'), (b'a\r', b'a\r'), (b'a\n\r', b'a\n\r'), (b'a\r\r\n', b'a\r'),
             (b'a \n', b'a '))


class FilesOfValues(Subst):
    """Values that are whole files."""

    def test_set_file(self):
        write('key', b'-----BEGIN KEY-----\nhunter2\r\n$A\\\n')
        write('empty', b'')
        for words in (['--set-file=KEY=key'], ['--set-file', 'KEY=key']):
            self.assert_done(words, b'[$KEY]', b'[-----BEGIN KEY-----\nhunter2\r\n$A\\]')
        self.assert_done(['--set-file=A=empty'], b'[$A${A:d}]', b'[]')
        self.assert_wrong(['--set-file=A=-'], READ_ONCE, source=b'')
        write('template', b'$A')
        self.assert_done(['--set-file=A=-', 'template'], b'a=b', b'a=b')
        write('values', b'A=values\nB=values\n')
        write('one', b'one')
        write('two', b'two')
        for words in (['--set-file=A=one', '-fvalues'], ['-fvalues', '--set-file=A=two', '--set-file=A=one']):
            self.assert_done(words, b'$A $B', b'one values')
        self.assert_done(['-sA=set', '--set-file=A=one'], b'$A', b'set')

    def test_set_file_that_is_refused(self):
        for word in ('A', ''):
            self.assert_wrong(['--set-file', word], "no '=' in argument 1 of --set-file")
        self.assert_wrong(['--set-file=a-b=c'], "'a-b' of --set-file is not a variable name")
        self.assert_failed(['--set-file=A=nothing'], failed('nothing', errno.ENOENT), source=b'a')
        for data in (b'ab\nc\xff', b'ab\nc\xff\n'):
            write('bad', data)
            self.assert_refused(['--set-file=A=bad'], b'a', told_without_line('bad:2:2', 'invalid UTF-8'))

    def test_last_line_end_of_a_value(self):
        os.makedirs('folder')
        for data, value in LINE_ENDS:
            write('folder/A', data)
            for words in (['--set-file=A=folder/A'], ['-ffolder'], ['--defaults=folder']):
                self.assert_done(words, b'[$A]', b'[' + value + b']')
                self.assert_done([*words, '--keep-line-end'], b'[$A]', b'[' + data + b']')
        # A lone line end is an empty value.
        write('folder/A', b'\n')
        self.assert_done(['-ffolder', '--no-empty'], b'${A:d}', b'd')
        self.assert_done(['-ffolder', '--no-empty', '--keep-line-end'], b'${A:d}', b'\n')
        write('values', b'A=1\n')
        self.assert_done(['-fvalues', '--keep-line-end'], b'[$A]', b'[1]')

    def test_folder_of_values(self):
        make_secrets()
        for words in (['-fsecrets'], ['-f', 'secrets/'], ['--defaults=secrets']):
            self.assert_done(words, b'$USER:$PASSWORD', b'ann:hunter2')
        write('values', b'USER=bob\n')
        self.assert_done(['-fsecrets', '-fvalues'], b'$USER', b'bob')
        self.assert_done(['-fvalues', '-fsecrets'], b'$USER', b'ann')
        os.makedirs('none')
        self.assert_done(['-fnone'], b'${A:d}', b'd')
        os.remove('secrets/..data')
        end = failed('secrets/PASSWORD', errno.ENOENT) + failed('secrets/USER', errno.ENOENT)
        self.assert_failed(['-fsecrets'], end, source=b'$USER')
        write('none/A', b'\xff')
        self.assert_refused(['-fnone'], b'a', told_without_line('none/A:1:1', 'invalid UTF-8'))


class Defaults(Subst):
    """Default values, and empty values."""

    def test_defaults_are_below_all_else(self):
        write('values', b'A=values\nB=values\n')
        write('defaults', b'A=defaults\nB=defaults\nC=defaults\nD=defaults\nE=defaults\nE=last\n')
        words = ['--defaults=defaults', '--default=D=default', '--default', 'F=first', '--default=F=second']
        env, source = {'A': 'env', 'B': 'env', 'C': 'env'}, b'$A $B $C $D $E $F'
        for more in ([*words, '-sA=set', '-fvalues', '-e'], ['-e', '-fvalues', '-sA=set', *words]):
            self.assert_done(more, source, b'set values env default last second', env=env)
        self.assert_done(['-e', '--default=A=d'], b'$A${B:x}', b'x', env={'A': ''})
        for word in ('A', ''):
            self.assert_wrong(['--default', word], "no '=' in argument 1 of --default")
        write('wrong', b'A\n')
        self.assert_refused(['--defaults=wrong'], b'a', told_without_line('wrong:1:1', "missing '='"))

    def test_no_empty(self):
        write('values', b'A=\nB= \n')
        for words in (['-fvalues'], ['-sA=', '-sB= ']):
            self.assert_done([*words, '--no-empty'], b'[${A:80}][${B:80}][${A?}]', b'[80][ ][]')
            self.assert_done(words, b'[${A:80}]', b'[]')
        # Empty values are skipped, so that later ones are used.
        words = ['-sA=', '-fvalues', '-e', '--default=A=', '--default=B=b']
        self.assert_done(words, b'[$A][$B]', b'[][ ]', env={'A': 'env'})
        self.assert_done(['--no-empty', *words], b'[$A][$B]', b'[env][ ]', env={'A': 'env'})
        self.assert_refused(['--no-empty', '-e'], b'$A', missing('A', '<stdin>:1:2', '$A', ' ^'), env={'A': ''})
        self.assert_done(['--no-empty', '-e', '--default=A=d'], b'$A', b'd', env={'A': ''})


TEXTS = ('', 'a b', '"\\/', "it's", "'", "''\\''", '$A `id` $(id) "x"\n\t;', '\x01\x1f\x7f\u00e4\u2028\r\b\f',
         '\U0001f600')


class Escapes(Subst):
    """Values that are escaped for JSON and for a shell."""

    def test_escape_json(self):
        for text in TEXTS:
            end = subst(['--escape=json', f'-sA={text}'], b'{"a": "$A", "b": ["x${A}y"]}')
            self.assertEqual((end.status, json.loads(end.output)), (0, {'a': text, 'b': [f'x{text}y']}))
        self.assert_done(['--escape=json', '-sA="\\\n\x1f/'], b'$A', b'\\"\\\\\\n\\u001f/')

    def test_escape_sh(self):
        for text in TEXTS:
            end = subst(['--escape', 'sh', f'-sA={text}'], b'printf %s,%s $A x${A}y')
            self.assertEqual(end.status, 0, f'{text!r}: {end.errors}')
            said = subprocess.run(['sh', '-c', end.output], stdout=subprocess.PIPE, check=True).stdout
            self.assertEqual(said, f'{text},x{text}y'.encode())
        self.assert_done(['--escape=sh', "-sA=it's"], b'$A', b"'it'\\''s'")
        self.assert_done(['--escape=sh', '--no-empty', '-sA='], b'${A:d}', b'd')
        self.assert_failed(['--escape=sh', '--set-file=A=-', '--bytes', 'x'], failed('x', errno.ENOENT), source=b'a')
        self.assert_wrong(['--escape=xml'], '--escape must be json or sh')

    def test_escape_of_long_values(self):
        value = "'\"" * some_size(MIB)
        write('value', value.encode())
        self.assert_done(['--escape=sh', '--set-file=A=value'], b'$A', b"'" + value.encode().replace(b"'", b"'\\''")
                         + b"'")
        self.assert_done(['--escape=json', '--set-file=A=value'], b'$A', value.encode().replace(b'"', b'\\"'))


class Rows(Subst):
    """Wrong arguments about rows."""

    def test_options_that_need_rows(self):
        for word in ('--rows-format=csv', '--separator=', '--nested=json', '--keep-going'):
            self.assert_wrong([word], f"{word.split('=')[0]} needs --rows")

    def test_format_of_rows(self):
        for name in ('', 'CSV', 'json', 'jsonl '):
            self.assert_wrong(['--rows=a.csv', f'--rows-format={name}'], '--rows-format must be csv, tsv or jsonl')
        text = "--rows needs --rows-format, since the file's ending isn't .csv, .tsv or .jsonl"
        for file in ('-', 'a', 'csv', 'a.CSV', 'a.json', 'a.csv.gz'):
            self.assert_wrong([f'--rows={file}', 'template'], text)
        for name in ('', 'JSON', 'csv'):
            self.assert_wrong(['--rows=a.jsonl', f'--nested={name}'], '--nested must be json')

    def test_rows_take_one_template(self):
        for files in (['a', 'b'], ['a', 'a'], ['-', 'a']):
            self.assert_wrong(['--rows=a.csv', *files], '--rows takes one template')

    def test_rows_of_standard_input(self):
        write('a', b'$A')
        for name in ('-', '/dev/stdin', '/dev/fd/0'):
            for words in ([], ['-'], ['a', '-f', '-'], ['a', '--dotenv=-'], ['a', '--set-file=A=-']):
                self.assert_wrong([f'--rows={name}', '--rows-format=csv', *words], READ_ONCE)

    def test_options_of_rows_are_given_once(self):
        for option, value in (('--rows', 'FILE'), ('--rows-format', 'csv|tsv|jsonl'), ('--separator', 'TEXT'),
                              ('--nested', 'json')):
            self.assert_wrong(['--rows=a.csv'] * (option != '--rows') + [f'{option}=a', f'{option}=a'],
                              f"the argument '{option} <{value}>' cannot be used multiple times")
