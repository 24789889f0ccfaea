"""The command line of `subst`: help, files and arguments, the output of --check and --names, and hints."""
import errno
import itertools
import re

from faults import invalid_escape
from tests.subst import NO_NAME, PROGRAM, UNREADABLE, Subst, failed, missing, subst, told, told_without_line, write
from tests.support import MIB, in_memory, run_with_hints, shown, some_size, version

FORMATS = 'json|toml|yaml|text|bytes|auto'
HELP = b"""\
Fill in $name, ${name}, ${name:default} and ${name?} in files.

Usage: subst [OPTIONS] [FILE]...

Arguments:
  [FILE]...  Files to fill in; standard input if there are none, or for '-'

Options:
  -h, --help     Print help
  -V, --version  Print version

Variables:
  -s, --set <NAME=VALUE>      Set NAME to VALUE; the last one wins
      --set-file <NAME=FILE>  Set NAME to the contents of FILE, without a final newline
  -f, --values <FILE>         Read NAME=VALUE lines (as docker run --env-file), or a directory with a file per name
      --keep-line-end         Keep the last line end of a file whose contents are a value
  -e, --env                   Use the environment's variables
      --dotenv <FILE>         Read a .env file, with quotes, 'export', comments, and variables as with --shell
      --default <NAME=VALUE>  Set NAME to VALUE if no row and no option above sets it
      --defaults <FILE>       Read FILE as --values does, for names that no row and no option above sets
      --no-empty              Treat empty values as unset
      --escape <json|sh>      Escape values for sh or json; in YAML, json is right only between double quotes (see --yaml)

Rows:
      --rows <FILE>                  Expand the template once for each row of FILE: .csv, .tsv or .jsonl; '-' is standard input
      --rows-format <csv|tsv|jsonl>  Read rows in this format, whatever the ending of FILE
      --separator <TEXT>             Write TEXT between the outputs of rows; nothing by default
      --nested <json>                Insert arrays and objects of JSON Lines as their JSON text; by default they are errors
      --keep-going                   Report and leave out rows that are refused, and write the others

Formats:
      --format <%s>
          Read files in this format; the options below are its short forms
      --json
          Fill in the strings of JSON documents
      --toml
          Fill in the strings of TOML documents
      --yaml
          Fill in the values of YAML documents, and quote those that need it
      --bytes
          Accept any bytes; by default input must be UTF-8
      --auto
          Choose the format of each file by its ending: .json, .toml, .yaml or .yml; other files are text

Reading:
      --only <NAMES>  Expand only these variables (NAME or APP_*); leave all other text as it is
      --envsubst      Expand only $NAME and ${NAME}, like envsubst; leave all other text as it is
      --known         Expand only variables that are set; leave all other text as it is
      --shell         Expand ${NAME:-default} and the other forms of Docker Compose
      --compose       Same as --shell
      --strict        With --shell, report unset variables; with --check, report defaults written as ${NAME:-x}
      --optional      With --envsubst, --shell, --only or --known, expand unset variables to nothing

Writing:
  -o, --output <FILE>           Write the output to FILE, whole or not at all
  -O, --output-folder <FOLDER>  Write each file's output into FOLDER; directories are read recursively
      --strip <SUFFIX>          In directories, process only files whose names end in SUFFIX; with -O, remove it from output names
  -i, --in-place                Replace each file by its output, whole or not at all; directories are read recursively

Asking:
      --check  Report all errors and write nothing; directories are read recursively
      --names  List the variables: name, first use, whether required, and default

A backslash escapes \\ $ { } and :. With --only, --envsubst, --known or --shell,
a backslash is text.

Precedence of values, the first one wins: --set, --set-file, the row, values
files, the environment, .env files, --default, defaults files. All unset
variables of a file are reported. If it has another error, only that error is
reported; with --only, --envsubst, --known or --shell, all refused forms are
reported.

Exit status: 0 done, 1 a file or value is refused, 2 wrong arguments, 3 a file
or device failed, 4 out of memory. See subst(1) for more.
""" % FORMATS.encode()


class Help(Subst):
    """The output of --help and --version."""

    def test_help_and_version(self):
        for word in ('--help', '-h'):
            self.assert_done([word], output=HELP)
        for word in ('--version', '-V'):
            self.assert_done([word], output=f'subst {version()}\n'.encode())
        self.assert_done(['-s', 'a=1', '--help', 'nothing'], output=HELP)

    def test_help_fails_where_its_output_does(self):
        for word in ('--help', '-h', '--version', '-V'):
            with open('/dev/full', 'wb') as full:
                self.assertTrue(subst([word], stdout=full).status == 3, f'the status of {word} is not 3')

    def test_help_says_that_its_output_failed(self):
        with open('/dev/full', 'wb') as full:
            self.assert_failed(['--help'], failed('<stdout>', errno.ENOSPC), stdout=full)


# Options that conflict with --rows, as in messages.
NOT_WITH_ROWS = ('--escape <json|sh>', f'--format <{FORMATS}>', '--json', '--toml', '--yaml', '--auto', '--only <NAMES>',
                 '--envsubst', '--known', '--shell', '--compose', '--strict', '--optional', '--output-folder <FOLDER>',
                 '--strip <SUFFIX>', '--in-place', '--names')
# Pairs of conflicting options, as arguments and in messages.
CONFLICTS = (
    *(('--rows <FILE>', other) for other in NOT_WITH_ROWS),
    *itertools.combinations([f'--format <{FORMATS}>', '--json', '--toml', '--yaml', '--bytes', '--auto'], 2),
    ('--only <NAMES>', '--known'), ('--envsubst', '--shell'), ('--envsubst', '--compose'),
    ('--known', '--names'),
    ('--output <FILE>', '--in-place'), ('--output <FILE>', '--check'), ('--output <FILE>', '--names'),
    ('--in-place', '--check'), ('--in-place', '--names'), ('--check', '--names'),
)


class Arguments(Subst):
    """Files and options, and wrong arguments."""

    def test_files_and_standard_input(self):
        write('a', b'a$A')
        write('b', b'b$A\n')
        write('-c', b'c$A')
        self.assert_done(['-sA=1', 'a', 'b', 'a'], output=b'a1b1\na1')
        self.assert_done(['a', '-sA=1', '-', 'b'], b'$A.', b'a11.b1\n')
        self.assert_done(['-sA=1'], b'$A.', b'1.')
        self.assert_done(['-sA=1', '-', '-'], b'$A.', b'1.')
        self.assert_done(['-sA=1', '--', '-c', 'a'], output=b'c1a1')
        self.assert_done(['-sA=1', './-c'], output=b'c1')
        # All files are read before any is expanded.
        self.assert_failed(['a', '--', '-sA=1'], failed('-sA=1', errno.ENOENT) + missing('A', 'a:1:3', 'a$A', '  ^'))
        self.assert_done(['-sA=1'], b'')

    def test_nothing_is_written_where_one_file_is_refused(self):
        write('a', b'a$A')
        write('b', b'$\n$B')
        write('c', b'$B $A')
        refused = told('b:1:1', NO_NAME, '$', '^') + missing('B', 'c:1:2', '$B $A', ' ^')
        for words in ([], ['--check'], ['-o', 'new']):
            self.assert_refused(['-sA=1', 'a', 'b', 'c', *words], b'', refused)
            self.assert_files('a', 'b', 'c')

    def test_status_is_the_highest(self):
        write('bad', b'$')
        refused, absent = told('bad:1:1', NO_NAME, '$', '^'), failed('nothing', errno.ENOENT)
        for words in (['bad', 'nothing'], ['nothing', 'bad'], ['nothing', 'bad', '-i']):
            self.assert_failed(words, absent + refused)
        for word in ('--names', '--check', '-i'):
            self.assert_failed(['bad', 'nothing', word], refused + absent)

    def test_options_that_exclude_each_other(self):
        for one, other in CONFLICTS:
            for first, second in ((one, other), (other, one)):
                words = [re.sub(' <.*', '=A', option) for option in (first, second)]
                self.assert_wrong(words, f"the argument '{first}' cannot be used with '{second}'", usage=first)

    def test_wrong_words(self):
        rows = (('--sett', '--set', '--set <NAME=VALUE>'), ('--in-plac', '--in-place', '--in-place'),
                ('--outputs', '--output', '--output <FILE>'), ('--jsn', '--json', '--json'))
        for word, option, usage in rows:
            more = f"  tip: a similar argument exists: '{option}'\n\n"
            self.assert_wrong([word], f"unexpected argument '{word}' found", usage, more)
        for word, option in (('--env-file', '--values'), ('--output-dir', '--output-folder')):
            for words in ([word, 'a'], ['-sA=1', f'{word}=a'], [word]):
                self.assert_wrong(words, f"unexpected argument '{word}' found",
                                  more=f"  tip: a similar argument exists: '{option}'\n\n")
        for word in ('--wrong', '-x'):
            more = f"  tip: to pass '{word}' as a value, use '-- {word}'\n\n"
            self.assert_wrong([word], f"unexpected argument '{word}' found", more=more)
        self.assert_wrong(['-o', 'a', '-o', 'b'], "the argument '--output <FILE>' cannot be used multiple times")
        self.assert_ends(subst([b'\xff']), 2, errors=b"subst: error: an argument isn't UTF-8\n")
        self.assert_wrong(['-i'], '--in-place needs a file')
        self.assert_wrong(['-i', 'a', '-'], "--in-place can't be used with standard input")

    def test_flags_that_are_repeated(self):
        env = {'A': '1'}
        for words in (['-e', '-e'], ['-ee'], ['--env', '-e', '--env']):
            self.assert_done(words, b'$A', b'1', env=env)
        for flag, source, output in (('--bytes', b'\xff$A', b'\xff1'), ('--json', b'["$A"]', b'["1"]'),
                                     ('--toml', b'a="$A"', b'a="1"'), ('--yaml', b'a: $A', b'a: 1'),
                                     ('--envsubst', b'$A$1', b'1$1'),
                                     ('--check', b'$A', b''), ('--names', b'$A', b'A\t<stdin>:1:2\trequired\n')):
            self.assert_done([flag, '-sA=1', flag, flag], source, output)
        write('a', b'$A')
        self.assert_done(['-i', '-sA=1', '-ii', 'a', '--in-place'])
        self.assert_file('a', b'1')
        text = "the argument '--json' cannot be used with '--toml'"
        self.assert_wrong(['--json', '--json', '--toml', '--toml'], text, usage='--json')


class Questions(Subst):
    """Options that report or list, and write nothing else."""

    def test_check_keeps_no_output(self):
        for name in range(40):
            write(f'{name}', b'${A}' + b'a' * some_size(3 * MIB, 6 * MIB))
        self.assert_done(['--check', '-sA=1', *map(str, range(40))], **in_memory(64 * MIB))

    def test_check(self):
        write('good', b'${A}\n')
        write('bad', b'$B\n$C')
        write('worse', b'$A\n${')
        refused = (missing('B', 'bad:1:2', '$B', ' ^'), missing('C', 'bad:2:2', '$C', ' ^'),
                   told('worse:2:1', NO_NAME, '${', '^^'))
        self.assert_done(['--check', '-sA=1', 'good'])
        self.assert_done(['--check', '-sA=1'], b'$A')
        self.assert_done(['--check', '-sA=1', 'good', 'good', '--envsubst'])
        self.assert_refused(['--check', '-sA=1', 'bad', 'good', 'worse'], b'', *refused)
        self.assert_failed(['--check', 'nothing', '-sA=1', 'worse'], failed('nothing', errno.ENOENT) + refused[2])
        self.assert_files('good', 'bad', 'worse')

    def test_names(self):
        write('a', b'\n${b:$c} ${d?} \\$no ${e:x}')
        write('b', b'$a ${b} ${d:x} ${c:} ${e?} $a')
        self.assert_done(['--names', 'a', 'b'], output=b'b\ta:2:3\trequired\nc\ta:2:6\trequired\nd\ta:2:11\toptional\n'
                         b'e\ta:2:22\tdefault\tx\na\tb:1:2\trequired\n')
        self.assert_done(['--names', 'b', '-sa=1', '-e', '--bytes'], output=b'a\tb:1:2\trequired\nb\tb:1:6\trequired\n'
                         b'd\tb:1:11\tdefault\tx\nc\tb:1:18\tdefault\t\ne\tb:1:24\toptional\n')
        self.assert_done(['--names'], b'a\n')
        self.assert_done(['--names', '--only=a,x'], b'\\$b ${c:x} ${a:x} $a', b'a\t<stdin>:1:14\trequired\n')

    def test_names_with_defaults(self):
        nested = '${B:' * 100 + '}' * 100
        for words, default, as_shown in (
                ([], '', ''), ([], 'x y', 'x y'), ([], '${B?}d', '${B?}d'), ([], r'\}\{\\', r'\}\{\\'),
                ([], '{"k": {}}', '{"k": {}}'), ([], 'a\tb\r\n\x1bc', 'a b\\u{d}\\u{a}\\u{1b}c'), ([], '\u6f22', '\u6f22'),
                ([], 'x' * 240, 'x' * 240), ([], 'x' * 241, 'x' * 240 + '\u2026'), ([], 'x' * 2000, 'x' * 240 + '\u2026'),
                ([], '\u200b' * 2000, None), ([], nested, nested[:240] + '\u2026'), (['--shell'], '$B-x', '$B-x'),
                (['--shell'], '${B:-\\}d', '${B:-\\}d'), (['--bytes'], 'x:-', 'x:-')):
            sign = ':-' if '--shell' in words else ':'
            output = subst(['--names', *words], f'${{A{sign}{default}}}'.encode()).output.decode()
            if as_shown is None:
                self.assertTrue(output.endswith('\u2026\n'), output)
            else:
                self.assertEqual(output.splitlines()[0], f'A\t<stdin>:1:3\tdefault\t{as_shown}')
        self.assert_done(['--names', '--bytes'], b'${A:\xff}', 'A\t<stdin>:1:3\tdefault\t\ufffd\n'.encode())
        self.assert_done(['--names', '--json'], b'["\\u0024{A:say \\"hi\\"}"]', b'A\t<stdin>:1:10\tdefault\tsay "hi"\n')

    def test_names_of_files_that_are_refused(self):
        write('a', b'$a')
        write('bad', b'$b $')
        write('c', b'$c')
        output = b'a\ta:1:2\trequired\nc\tc:1:2\trequired\n'
        refused = told('bad:1:4', NO_NAME, '$b $', '   ^')
        self.assert_ends(subst(['--names', 'a', 'bad', 'c']), 1, output, refused)
        self.assert_ends(subst(['--names', 'a', 'nothing', 'c', 'bad']), 3, output, failed('nothing', errno.ENOENT)
                         + refused)

    def test_names_of_documents(self):
        self.assert_done(['--json', '--names'], b'{"$k": ["\\u0041$a", "${b?}"], "z": "${a:1}$c"}',
                         b'a\t<stdin>:1:17\trequired\nb\t<stdin>:1:24\toptional\nc\t<stdin>:1:44\trequired\n')
        self.assert_done(['--toml', '--names'], b'a = "${x:1}"\n[t]\nb = ["$y"]\n',
                         b'x\t<stdin>:1:8\tdefault\t1\ny\t<stdin>:3:8\trequired\n')
        self.assert_done(['--yaml', '--names'], b'$k: x ${a?}\n---\n- [b, "c $b ${a:1}"]\n# $c\n',
                         b'a\t<stdin>:1:9\toptional\nb\t<stdin>:3:11\trequired\n')
        message = told('<stdin>:1:9', f'/1: {NO_NAME}', '["$a", "$"]', '        ^')
        self.assert_refused(['--json', '--names'], b'["$a", "$"]', message)

    def test_places_of_many_faults(self):
        count = some_size(10000, 100000)
        for option, start, between, end in (('--json', b'["', b' ', b'"]'), ('--json', b'["', b'","', b'"]'),
                                            ('--toml', b'a = """\n', b'\\\n ', b'"""\n'),
                                            ('--toml', b'a = ["', b'",\n"', b'"]\n'),
                                            ('--yaml', b'- ', b'\n- ', b'\n'), ('--yaml', b'- ', b'\n  ', b'\n'),
                                            ('--yaml', b'- "', b' ', b'"\n'), ('--yaml', b'- >\n  ', b'\n  ', b'\n'),
                                            ('--yaml', b'- |\n  ', b'\n  ', b'\n')):
            source = start + between.join([b'$' + b'n' * 24] * count) + end
            came = subst([option], source)
            heads = [line for line in came.errors.splitlines() if line.startswith(b'<stdin>:')]
            last = source.rindex(b'$') + 1
            place = b'<stdin>:%d:%d: error: ' % (source.count(b'\n', 0, last) + 1, last - source.rfind(b'\n', 0, last))
            self.assertTrue(came.status == 1 and len(heads) == count, f'{option}: {came.status}, {len(heads)} faults')
            self.assertTrue(heads[-1].startswith(place), f'{option}: {shown(heads[-1])}')

    def test_names_of_large_documents(self):
        source = b'["$x", "' + b'a' * some_size(MIB, 32 * MIB) + b'", "$y $x"]'
        self.assert_done(['--json', '--names'], source,
                         f'x\t<stdin>:1:4\trequired\ny\t<stdin>:1:{source.index(b"$y") + 2}\trequired\n'.encode())
        count = some_size(10000, 99999)
        members = b','.join(b'\n"k%05d": "$n%05d"' % (at, at) for at in range(count, 0, -1))
        wanted = b''.join(b'n%05d\t<stdin>:%d:13\trequired\n' % (at, count + 2 - at) for at in range(count, 0, -1))
        self.assert_done(['--json', '--names'], b'{' + members + b'}', wanted)


def hinted(words, source=b'', **options):
    return run_with_hints(PROGRAM, words, source, name='subst', **options)


def default_of_a_shell(place, sign):
    return f"{place}: hint: this default begins with '{sign}'; use --shell for shell-style defaults\n".encode()


def left_as_text(place):
    return f'{place}: hint: this variable is left as text; to expand it, use --shell\n'.encode()


class Hints(Subst):
    """Hints: likely mistakes, printed besides a message."""

    def test_hint_of_a_default_of_a_shell(self):
        for sign in '-=?+':
            source = f'$A ${{A:d}}\n${{A_1:{sign}x}}${{B:-y}}'.encode()
            hint = default_of_a_shell('<stdin>:2:7', sign)
            self.assert_ends(hinted(['-sA=1'], source), 0, f'1 1\n{sign}x-y'.encode(), hint)
            self.assert_ends(hinted(['-sA=1', '--check'], source), 0, errors=hint)
            self.assert_ends(hinted(['-sA=1', '--envsubst'], source), 0, source.replace(b'$A ', b'1 '),
                             b'<stdin>:1:8: hint: this default is left as text; to expand it, use --only or --known\n')
            after = source.split(b'\n')[1]
            self.assert_ends(hinted(['-sA=1', '--envsubst'], after), 0, after,
                             left_as_text('<stdin>:1:7'))
            self.assert_ends(hinted(['-sB=1', '--only=A_1'], source), 0, source,
                             left_as_text('<stdin>:2:7'))
            self.assert_ends(hinted(['-sA=1', '--only=A'], source), 0, source.replace(b'$A ${A:d}', b'1 1'))
            self.assert_ends(hinted(['-sC=1', '--known'], source), 0, source.replace(b'${A:d}', b'd'),
                             left_as_text('<stdin>:2:7'))
        write('a', b'${A:-x}')
        write('b', b'$B ${A:-x}')
        self.assert_faults(hinted(['a', 'b']), default_of_a_shell('a:1:5', '-'),
                          missing('B', 'b:1:2', '$B ${A:-x}', ' ^'))
        for source in (b'${A:x-}', b'{A:-x}', b'$A:-x', b'${A:', b'${:-x}'):
            self.assertTrue(b'--shell\n' not in hinted(['-sA=1', '--only=A'], source).errors, f'{source}')
        for words, source in (([], b'\\${A:-x}'), (['--envsubst', '--only=B'], b'${A:-x}${A:d}')):
            self.assertEqual(hinted(['-sA=1', *words], source).errors, b'', f'{words} {source}')
        self.assert_ends(hinted(['-sA=1'], b'\\\\${A:-x}'), 0, b'\\1',
                         default_of_a_shell('<stdin>:1:7', '-'))

    def test_default_that_is_an_error(self):
        shell = "this default begins with '-'; use --shell for shell-style defaults"
        kept = 'this variable is left as text; to expand it, use --shell'
        text = 'this default is left as text; to expand it, use --only or --known'
        words = ['-sA=1', '--check', '--strict']
        for more, source, place, what in (([], '$A ${A:-x}', '1:8', shell),
                                          (['--only=A'], '${A:-x}', '1:5', kept),
                                          (['--envsubst'], '$A\n${A:x}', '2:5', text),
                                          ([], 'a' * (2 << 20) + '\n${A:-x}', '2:5', shell)):
            line = source.split('\n')[-1]
            message = told(f'<stdin>:{place}', what, line, ' ' * (int(place.split(':')[1]) - 1) + '^')
            self.assert_faults(hinted([*words, *more], source.encode()), message)
        source = '${A:-x} \\${A:-x}\n${A:d}${A:+x}'
        self.assert_faults(hinted(words, source.encode()),
                           told('<stdin>:1:5', shell, source.split('\n')[0], '    ^'),
                           told('<stdin>:2:11', shell.replace('-', '+', 1), '${A:d}${A:+x}', ' ' * 10 + '^'))
        write('a', b'${A:-x}')
        write('b', b'$B ${A:=x}')
        first = told('a:1:5', shell, '${A:-x}', ' ' * 4 + '^')
        second = told('b:1:8', shell.replace('-', '=', 1), '$B ${A:=x}', ' ' * 7 + '^')
        self.assert_faults(hinted([*words, 'a', 'b', 'a']), first, second, missing('B', 'b:1:2', '$B ${A:=x}', ' ^'), first)
        # The hint is printed without either option, and not if the default is read as such.
        for less in (['--check'], ['--strict']):
            self.assertEqual(hinted(['-sA=1', *less, 'a']).status, 0)
        self.assert_ends(hinted([*words, '--shell', 'a']), 0)
        self.assert_ends(hinted([*words, '--json'], b'["${A:-x}"]'), 0)

    def test_hint_of_names_of_a_shell_that_are_not_set(self):
        source = b'listen ${PORT:-8080}; $host\n${PORT+$x}$host ${A:+x}$E[${path}]'
        hints = b'<stdin>:1:24: hint: $host is not set\n<stdin>:2:29: hint: $path is not set\n'
        for words in ([], ['--only=host,path,PORT,A,E']):
            self.assert_ends(hinted(['--shell', '-sE=', *words], source), 0, b'listen 8080; \n []', hints)
        for words in (['--optional'], ['--only=PORT,A,E']):
            self.assertEqual(hinted(['--shell', '-sE=', *words], source).errors, b'')
        end = hinted(['--shell', '-sE=', '--strict'], source)
        self.assertEqual((end.status, end.output, b'hint' in end.errors), (1, b'', False))
        # A run prints one hint for each name, and none for a variable with an unreadable value.
        for name, text in (('a', b'$x ${y-}$x'), ('b', b'$z $x')):
            write(name, text)
        for words in ([], ['-o', 'new'], ['-O', 'out'], ['--check'], ['-i']):
            end = hinted(['--shell', '-sE=', *words, 'a', 'b'])
            self.assertEqual((end.status, end.errors), (0, b'a:1:2: hint: $x is not set\nb:1:2: hint: $z is not set\n'))
        self.assert_faults(hinted(['--shell', '-e'], b'$A', env={b'A': b'\xff'}),
                           told('<stdin>:1:2', f'{UNREADABLE}A', '$A', ' ^'))

    def test_hint_of_a_default_of_ours(self):
        end = hinted(['-e', '--envsubst'], b'listen ${PORT:8080}; $host', env={})
        self.assertEqual((end.status, end.output), (1, b''))
        self.assertIn(missing('host', '<stdin>:1:23', 'listen ${PORT:8080}; $host', ' ' * 22 + '^' * 4), end.errors)
        self.assertIn(b'<stdin>:1:15: hint: this default is left as text; to expand it, use --only or --known\n', end.errors)

    def test_hint_of_a_file_that_is_no_file(self):
        hint = b'subst: hint: use --set A=VALUE to set a variable\n'
        self.assert_ends(hinted(['A=hunter2']), 3, errors=failed('A=hunter2', errno.ENOENT) + hint)
        hint = b"subst: hint: use --only NAMES to choose variables, as envsubst's argument does\n"
        self.assert_ends(hinted(['$A $B']), 3, errors=failed('$A $B', errno.ENOENT) + hint)
        self.assert_ends(hinted(['-f', 'A=1']), 3, errors=failed('A=1', errno.ENOENT))

    def test_hint_of_a_values_file_of_a_shell(self):
        quotes = 'the quotes are part of this value; use --dotenv for quoted values'
        for text, place in (('A="x"', '1:3'), ("A='x y'\r\nB=\"y\"", '1:3'), ('# "\nB=1\n A=""\n', '3:4')):
            write('values', text.encode())
            for word in ('-f', '--defaults'):
                self.assert_ends(hinted([word, 'values']), 0, errors=f'values:{place}: hint: {quotes}\n'.encode())
        for text in ('A="x', 'A="', "A='x\"", 'A=x"y"', '#A="x"\n # B=\'\'', 'A= "x"', 'exported=1', 'A=export B="x" y'):
            write('values', text.encode())
            self.assert_ends(hinted(['-f', 'values']), 0)
        for text, place in (('export A=1', '1:1'), ('A=1\n\t export A="x"\n', '2:3')):
            write('values', text.encode())
            hint = f"values:{place}: hint: write NAME=VALUE without 'export', as for docker run --env-file\n"
            self.assert_faults(hinted(['-f', 'values']), hint.encode(),
                              told_without_line(f'values:{place}', 'not a variable name'))

    def test_hint_of_faults(self):
        none = b'subst: hint: no variables are set; use --set, --values or --env\n'
        other = b"subst: hint: for another tool's file, use --only, --envsubst or --shell\n"
        fault = missing('A', '<stdin>:1:2', '$A', ' ^')
        write('empty', b'')
        for words in ([], ['--envsubst'], ['--no-empty'], ['--check']):
            self.assert_faults(hinted(words, b'$A'), fault, none)
        for words in (['-e'], ['-sB=1'], ['-fempty'], ['--default=B=1'], ['--defaults=empty'], ['--set-file=B=empty']):
            self.assert_faults(hinted(words, b'$A'), fault)
        for source, message in ((b'\\d', told('<stdin>:1:1', invalid_escape('d'), '\\d', '^^')),
                                (b'5 $ $A', told('<stdin>:1:3', NO_NAME, '5 $ $A', '  ^'))):
            self.assert_faults(hinted([], source), message, other)
            self.assertTrue(b'hint' not in hinted(['--only=B'], source).errors, f'{source}')
        write('a', b'$A')
        self.assert_faults(hinted(['a', 'a']), missing('A', 'a:1:2', '$A', ' ^'), none,
                          missing('A', 'a:1:2', '$A', ' ^'))
