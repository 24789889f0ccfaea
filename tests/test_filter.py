"""The program subst_filter: its arguments, its environment and its input, also large ones.

No contract covers `main` and standard error, so these tests run the program as a shell would. Expected outputs are
worked out here from the rules of the language, not from a run.
"""
import os
import random
import resource
import shutil

from faults import invalid_escape, missing_brace, missing_name, no_such_variable, unexpected
from tests.support import (KIB, MIB, Built, builds_of, file_of, fill, in_memory, left_in, limited, path_of, pipe, run,
                           some_size, with_entries)

PROGRAM = 'subst_filter'
NOT_UTF8 = b'subst: input is not UTF-8\n'
USAGE = b'usage: subst_filter bytes|text|env [NAME=VALUE]...\n'
READ_FAILED = b'subst: read failed\n'
SPECIAL = b'\\${}:'
# All bytes that expand to themselves, also outside UTF-8.
PLAIN = bytes(byte for byte in range(256) if byte not in b'\\$')
# The bytes of names of variables.
NAME_BYTES = b'0123456789ABCDEFGHIJKLMNOPQRSTUVWXYZ_abcdefghijklmnopqrstuvwxyz'
# Each first argument of the filter, with a variable if it takes any.
WORDS = (['bytes', 'name=world'], ['text', 'name=world'], ['env'])
WRONG_WORDS = ([], [''], ['', 'bytes', 'a=1'], ['', 'env'], ['bytes', 'name'], ['bytes', 'a=1', 'b'], ['bytes', ''],
               ['text', 'name'], ['text', 'a=1', 'b'], ['env', 'a=1'], ['env', ''], ['env', 'env'], ['Bytes'], ['a=1'],
               ['--help'])


def fill_in(words, source=b'', **options):
    """Runs the filter over bytes, with these arguments of the form NAME=VALUE."""
    return run(PROGRAM, ['bytes', *words], source, **options)


def fill_text_in(words, source=b'', **options):
    """Runs the filter over text, with these arguments of the form NAME=VALUE."""
    return run(PROGRAM, ['text', *words], source, **options)


def fill_in_from(environment, source=b'', **options):
    """Runs the filter over text, with the variables of this environment."""
    return run(PROGRAM, ['env'], source, env=environment, **options)


def refused(fault, highlighting=''):
    """Returns the filter's message about a fault."""
    return f'subst: {fault}\n{highlighting}'.encode()


class Filter(Built):
    """Statuses and messages."""
    programs = PROGRAM,

    def test_fills_variables_in(self):
        self.assert_ends(fill_in(['name=world'], b'Hello $name!'), 0, b'Hello world!')
        self.assert_ends(fill_in(['a=1', 'b=x=y', 'a=2', '=z'], b'$a ${b} ${c:$a}'), 0, b'2 x=y 2')
        self.assert_ends(fill_in([], b'\x00\xff {}:\n'), 0, b'\x00\xff {}:\n')
        self.assert_ends(fill_in([]), 0)

    def test_fills_texts_in(self):
        heart = '\u2764'.encode()
        self.assert_ends(fill_text_in(['name=world'], b'Hello $name!'), 0, b'Hello world!')
        self.assert_ends(fill_text_in([b'a=' + heart, 'b=x=y', 'a=2', '=z', b'a=' + heart], b'$a ${b} ${c:$a}'), 0,
                         heart + b' x=y ' + heart)
        self.assert_ends(fill_text_in([], heart + b'\x00 {}:\n'), 0, heart + b'\x00 {}:\n')
        self.assert_ends(fill_text_in([]), 0)

    def assert_each_word(self, build):
        """Fails the test unless a build of the filter obeys each first argument."""
        letter = ('Dear $name,\n${greeting:Grüße aus ${town:Köln}}! ${title?}You owe ${sum}${empty}\\: '
                  '\\$name, \\{\\}, \\\\ and ❤.\n')
        written = 'Dear Zoë,\nGrüße aus Köln! You owe 12 €: $name, {}, \\ and ❤.\n'
        lines = '$LANG, ${LANG?}, ${LANG:none}\n${PATH:none}\n${ABSENT:default of $LANG}, ${ABSENT?}.\n'
        given = 'C.UTF-8, C.UTF-8, C.UTF-8\n/usr/bin:/bin\ndefault of C.UTF-8, .\n'
        words, variables = ['text', 'name=Zoë', 'sum=12 €', 'empty='], {'LANG': 'C.UTF-8', 'PATH': '/usr/bin:/bin'}
        self.assert_ends(fill_in(['name=world'], b'Hello $name!', executable=build), 0, b'Hello world!')
        self.assert_ends(run(PROGRAM, words, letter.encode(), executable=build), 0, written.encode())
        self.assert_ends(fill_in_from(variables, lines.encode(), executable=build), 0, given.encode())

    def assert_unread(self, words, status, errors, **options):
        """Fails the test unless a run ends like this before it reads its input."""
        with pipe() as (reader, writer):
            count = fill(writer)
            self.assert_ends(run(PROGRAM, words, stdin=reader, **options), status, errors=errors)
            self.assertEqual(len(left_in(reader)), count, f'input was read with the words {words}')

    def test_has_each_word(self):
        self.assert_each_word(path_of(PROGRAM))

    def test_built_by_the_other_compiler_has_each_word(self):
        others = builds_of(PROGRAM)[1:]
        if not others:
            self.skipTest('the other compiler has not built it')
        self.assert_each_word(others[0])

    def test_refuses_input_that_is_no_text(self):
        for source in (b'\xff', b'$a \xc3', b'\xed\xa0\x80', b'\xc3$'):
            for end in (fill_text_in(['a=1'], source), fill_in_from({'a': '1'}, source)):
                self.assert_ends(end, 1, errors=NOT_UTF8)
            # An input that isn't read to its end isn't reported.
            with pipe() as (reader, writer):
                os.set_blocking(reader, False)
                os.write(writer, source)
                self.assert_ends(fill_text_in(['a=1'], stdin=reader), 3, errors=READ_FAILED)

    def test_takes_variables_from_the_environment_for_the_word_env_alone(self):
        self.assert_ends(fill_in_from({'name': 'world'}, b'Hello $name!'), 0, b'Hello world!')
        fault = no_such_variable('name')
        for words in ([], ['a=1']):
            self.assert_ends(run(PROGRAM, ['bytes', *words], b'$name', env={'name': 'world'}), 1, errors=refused(fault))
            self.assert_ends(run(PROGRAM, ['text', *words], b'$name', env={'name': 'world'}), 1,
                             errors=refused(fault, '  $name\n   ^^^^\n'))

    def test_takes_an_environment_as_it_is(self):
        # A value that is empty, holds `=`, holds special bytes, or has two lines.
        rows = [(b'', b''), (b'b=c', b'b=c'), (b'$a\\}', b'$a\\}'), (b'1\n2', b'1\n2')]
        for value, output in rows:
            self.assert_ends(fill_in_from({b'a': value}, b'<$a>'), 0, b'<' + output + b'>')
        self.assert_ends(fill_in_from({}, b'<${a?}>'), 0, b'<>')
        self.assert_ends(fill_in_from({}, b'<$a>'), 1, errors=refused(no_such_variable('a'), '  <$a>\n    ^\n'))
        # Names that no variable can have.
        self.assert_ends(fill_in_from({b'a.b': b'1', b'': b'2', '\u00e4'.encode(): b'3', b'a': b'4'}, b'$a.b'), 0,
                         b'4.b')

    def test_takes_the_first_of_two_entries_with_a_name(self):
        entries = with_entries(PROGRAM, [b'subst_filter', b'env'], [b'A=1', b'A=2', b'B', b'=C'])
        self.assert_ends(run(PROGRAM, [], b'$A', **entries), 0, b'1')
        # The program `env` sets a name again, so it passes on the last value alone.
        words = ['-i', 'A=1', 'A=2', path_of(PROGRAM), 'env']
        self.assert_ends(run(PROGRAM, words, b'$A', name='env', executable=shutil.which('env')), 0, b'2')

    def test_takes_an_environment_of_many_variables(self):
        variables = {f'NAME_{number}': f'value {number}' for number in range(some_size(1000, 30000))}
        source = ''.join(f'${{{name}}}\n' for name in variables)
        output = ''.join(f'{value}\n' for value in variables.values())
        self.assert_ends(fill_in_from(variables, source.encode()), 0, output.encode())

    def test_has_all_that_an_environment_has(self):
        rng = random.Random(5)
        # A long value, values of usual names, and names that no source can have.
        entries = [(b'LONG', b'v' * (100 * KIB)), (b'_', b'1'), (b'_A', b'2'), (b'1', b'3'), (b'a b', b'4'),
                   (b'a.b', b'5')]
        for _ in range(1000):
            name = bytes(rng.choices(NAME_BYTES, k=rng.randrange(1, 20))) + rng.choice((b'', b'', b'', b'.', b' x'))
            value = ''.join(rng.choices('ab=$\\{}: \n\t\u00e9\u2764', k=rng.choice((0, 5, 50, 5000))))
            entries.append((name, value.encode()))
        rng.shuffle(entries)
        values = dict(reversed(entries))
        written = [name for name in values if not name.strip(NAME_BYTES)]
        source, output = (b'\n'.join(it) for it in ([b'${%b}' % name for name in written], map(values.get, written)))
        entries.insert(500, (b'NOTHING',))
        strings = [b'='.join(entry) for entry in entries]
        entries = with_entries(PROGRAM, [b'subst_filter', b'env'], strings)
        self.assert_ends(run(PROGRAM, [], source + b'${NOTHING?}', **entries), 0, output)

    def test_fails_at_an_environment_outside_utf8(self):
        for variables in ({b'a': b'\xff'}, {b'\xff': b'a'}, {b'a': b'1', b'b': b'\xed\xa0\x80'}):
            self.assert_unread(['env'], 3, READ_FAILED, env=variables)
            # Only the argument `env` uses the environment.
            for words in (['bytes', 'a=1'], ['text', 'a=1']):
                self.assert_ends(run(PROGRAM, words, b'$a', env=variables), 0, b'1')
            self.assert_ends(run(PROGRAM, ['env', 'a=1'], b'$a', env=variables), 2, errors=USAGE)

    def test_prints_faults(self):
        rows = [
            (b'$', missing_name()),
            (b'a $name', no_such_variable('name')),
            (b'${a:\\x}', invalid_escape('x')),
            (b'${a:\\x', missing_brace()),
            (b'${a)', unexpected("')'")),
        ]
        for source, fault in rows:
            self.assert_ends(fill_in(['b=1'], b'text $b ' + source), 1, errors=refused(fault))

    def test_highlights_faults_of_texts(self):
        wide = 60 * 'x' + '$'
        rows = [
            ('Hi $!', missing_name(), '  Hi $!\n     ^\n'),
            ('one\nHi $!\nthree\n', missing_name(), '  Hi $!\n     ^\n'),
            ('\u65e5 ${name}\r\n', no_such_variable('name'), '  \u65e5 ${name}\n       ^^^^\n'),
            (wide[1:], missing_name(), f"  {wide[1:]}\n{61 * ' '}^\n"),
            (wide, missing_name(), ''),
        ]
        for source, fault, highlighting in rows:
            self.assert_ends(fill_in([], source.encode()), 1, errors=refused(fault))
            self.assert_ends(fill_text_in([], source.encode()), 1, errors=refused(fault, highlighting))
            self.assert_ends(fill_in_from({}, source.encode()), 1, errors=refused(fault, highlighting))

    def test_prints_usage_at_wrong_words(self):
        for words in WRONG_WORDS:
            self.assert_ends(run(PROGRAM, words, b'a'), 2, errors=USAGE)

    def test_prints_usage_without_even_a_name(self):
        self.assert_ends(run(PROGRAM, [], b'a', **with_entries(PROGRAM, [], [])), 2, errors=USAGE)

    def test_leaves_the_input_unread_at_wrong_words(self):
        for words in WRONG_WORDS:
            self.assert_unread(words, 2, USAGE)

    def test_fails_at_words_outside_utf8(self):
        rows = ([b'\xff'], [b'bytes', b'\xff=1'], [b'bytes', b'a=\xe4'], [b'bytes', b'a=1', b'b=\xed\xa0\x80'],
                [b'text', b'a=\xe4'], [b'env', b'\xff'])
        for words in rows:
            self.assert_unread(words, 3, READ_FAILED)


class Large(Built):
    """Large sources, values and lists, for which memory is enough."""
    programs = PROGRAM,

    def test_copies_large_sources(self):
        for least in (KIB, MIB, 16 * MIB):
            size = some_size(least)
            source = (PLAIN * (size // len(PLAIN) + 1))[:size]
            self.assert_ends(fill_in([], source), 0, source)

    def test_reads_many_escapes(self):
        output = bytes(random.choices(SPECIAL, k=some_size(64 * KIB, 4 * MIB)))
        self.assert_ends(fill_in([], b''.join(b'\\%c' % byte for byte in output)), 0, output)

    def test_copies_80_mib_before_an_escape_in_230_mib(self):
        source = b'a' * (80 * MIB)
        for words in WORDS:
            self.assert_ends(run(PROGRAM, words, source + b'\\$', **in_memory(230 * MIB)), 0, source + b'$')

    def test_reads_8_mib_of_escapes_in_100_mib(self):
        for words in WORDS:
            self.assert_ends(run(PROGRAM, words, b'\\$' * (4 * MIB), **in_memory(100 * MIB)), 0, b'$' * (4 * MIB))

    def test_takes_many_words_of_one_variable(self):
        words = [f'a={number}' for number in range(some_size(1000, 50000))]
        for run_on in (fill_in, fill_text_in):
            self.assert_ends(run_on(words, b'$a'), 0, words[-1][2:].encode())

    def test_takes_long_names(self):
        name = b'n' * some_size(KIB, 127 * KIB)
        self.assert_ends(fill_in([name + b'=1'], b'$' + name), 0, b'1')
        for word in ('bytes', 'text'):
            end = run(PROGRAM, [word], b'${%b}' % name)
            self.assert_ends(end, 1, errors=refused(no_such_variable(name.decode())))

    def test_takes_many_words(self):
        count = some_size(500, 20000)
        words = [f'name{number % count}=value{number}' for number in range(2 * count)]
        source = ''.join(f'${{name{number}}} $name{number}\n' for number in range(count))
        # The last argument of a name wins.
        output = ''.join(f'value{number} value{number}\n' for number in range(count, 2 * count))
        self.assert_ends(fill_in(words, source.encode()), 0, output.encode())

    def test_reads_many_braces_in_a_default(self):
        count = some_size(10000, MIB)
        for braces in (b'{' * count + b'}' * count, b'{}' * count):
            self.assert_ends(fill_in([], b'${a:' + braces + b'}'), 0, braces)
            self.assert_ends(fill_in(['a=1'], b'${a:' + braces + b'}'), 0, b'1')
            self.assert_ends(fill_in([], b'${a:' + braces), 1, errors=refused(missing_brace()))

    def test_reads_many_nested_defaults(self):
        count = some_size(10000, MIB)
        opened, closed = count * b'${a:', count * b'}'
        self.assert_ends(fill_in([], opened + b'x' + closed), 0, b'x')
        self.assert_ends(fill_in([], opened + b'\\x' + closed), 1, errors=refused(invalid_escape('x')))
        self.assert_ends(fill_in([], opened + b'$b' + closed), 1, errors=refused(no_such_variable('b')))
        for run_on in (fill_in, fill_text_in):
            self.assert_ends(run_on([], opened + closed[1:]), 1, errors=refused(missing_brace()))

    def test_reads_many_levels_on_a_stack_of_64_kib(self):
        count, limit = some_size(300000, 2 * MIB), limited(resource.RLIMIT_STACK, 64 * KIB)
        opened, closed, braces = count * b'${a:', count * b'}', count * b'{'
        missing = refused(missing_brace())
        rows = [
            (opened + b'x' + closed, 0, b'x', b''),
            (opened + b'x' + closed[1:], 1, b'', missing),
            (opened + b'\\x' + closed, 1, b'', refused(invalid_escape('x'))),
            (b'${a:' + braces + closed + b'}', 0, braces + closed, b''),
            (b'${a:' + braces + closed, 1, b'', missing),
            (count * b'${a:\\x', 1, b'', missing),
        ]
        for source, *wanted in rows:
            for end in (fill_in([], source, **limit), fill_text_in([], source, **limit),
                        fill_in_from({}, source, **limit)):
                self.assert_ends(end, *wanted)

    def test_writes_large_outputs(self):
        value, count = 2048 * ('0123456789abcdef\u00e4\u20ac' + 29 * '.'), some_size(64, 1024)
        self.assert_ends(fill_in(['a=' + value], count * b'${a}'), 0, count * value.encode())

    def test_reads_large_sources_with_many_variables(self):
        values = ('', 'v', '$none', '\\}', '${', 'a=b', 'line\nline', '\u00e4\u20ac', 'long ' * 20) * 4
        words = [f'name_{number}={value}' for number, value in enumerate(values)]
        count = some_size(250, 10000)
        source = count * ''.join(f'\\$ {{}} $name_{number}-${{name_{number}:$none}}${{no:<$name_{number}>}}${{no?}}\n'
                                 for number in range(len(values)))
        output = count * ''.join(f'$ {{}} {value}-{value}<{value}>\n' for value in values)
        with file_of(source.encode()) as file:
            self.assert_ends(fill_in(words, stdin=file), 0, output.encode())
        self.assert_ends(fill_in(words, source.encode() + b'$'), 1, errors=refused(missing_name()))
