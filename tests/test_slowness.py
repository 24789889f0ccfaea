"""Times of built programs, and of calls of the library from Python, for n of something and for eight times as many.

Each run takes less than 24 times as much processor time for 8n as for n; quadratic time would be 64 times as much.
Contracts bound only the reads and the turns of a loop. The least time of some runs is compared, and if it is too much,
of more runs. Less than 10 ms for 8n is never too much, since the square of 8n, which is 32,000 or more, is more steps
than that.
"""
import operator
import re
import resource
import time
from typing import Callable, NamedTuple

from tests import installed
from tests.support import KIB, MIB, Built, file_of, run

# How often each run is timed at once and at most, the factor of its size, the greatest factor of its time, and the
# seconds that are always allowed.
RUNS, MOST_RUNS, MORE, MOST, LEAST = 3, 12, 8, 24, 0.01


class Run(NamedTuple):
    """A run of a program over a source, and its output, or the number of faults in its report."""
    program: str
    words: list
    source: bytes
    output: bytes = b''
    faults: int = 0

    def seconds(self, _):
        """Returns the processor time of the run. Fails if the run ended early, as it is fast then."""
        with file_of(self.source) as source:
            before = resource.getrusage(resource.RUSAGE_CHILDREN)
            ended = run(self.program, self.words, stdin=source)
            after = resource.getrusage(resource.RUSAGE_CHILDREN)
        faults = len(re.findall(rb'^<stdin>:', ended.errors, re.MULTILINE)) if self.faults > 1 else bool(ended.errors)
        assert (ended.status, ended.output, faults) == (self.faults > 0, self.output, self.faults), \
            f'{ended.status}, {len(ended.output)} bytes and {faults} faults'
        return after.ru_utime + after.ru_stime - before.ru_utime - before.ru_stime


class Call(NamedTuple):
    """A call of the module over the library, and its result, or the position of its fault."""
    call: Callable
    wanted: object

    def seconds(self, module):
        before = time.process_time()
        try:
            came = self.call(module)
        except module.SubstError as refused:
            came = refused.position
        spent = time.process_time() - before
        assert came == self.wanted, 'it returns something else'
        return spent


def call(name, *arguments, wanted):
    return Call(operator.methodcaller(name, *arguments), wanted)


def check(source, *words, faults=1):
    return Run('subst_cli', words, source, faults=faults)


def names(count):
    return [f'name_{number}' for number in range(count)]


def values(count):
    return {name: '1' for name in names(count)}


def settings(count, before=''):
    return [f'{before}{name}=1' for name in names(count)]


def source_of(count, form='${{{}}}'):
    return ''.join(map(form.format, names(count)))


def fill_in_names(count, program, *words):
    """Returns a run in which each name is used eight times."""
    return Run(program, words, 8 * source_of(count).encode(), 8 * count * b'1')


def names_in(source):
    """Returns the variables of a source, all in braces and required, as the library lists them."""
    return [(0, it[1], it.start(1)) for it in re.finditer(r'{(\w+)}', source)]


def print_names(source, *words):
    lines = (f'{name}\t<stdin>:1:{at + 1}\trequired\n' for _, name, at in names_in(source))
    return Run('subst_cli', ['--names', *words], source.encode(), ''.join(lines).encode())


def numbered(count, document, member):
    """Returns a document with this many numbered members."""
    return document % b''.join(member % number for number in range(count))


# A string of a document.
STRING = '"${{{}}}",'
# Each run, with its n.
WORKS = {
    'fault after a line': (4 * MIB, lambda n: check(n * b'a' + b'$')),
    'fault after lines': (4 * MIB, lambda n: check(n * b'a\n' + b'$')),
    'highlighting': (4 * MIB, lambda n: Run('subst_filter', ['text'], n * b'a\n' + b'$', faults=1)),
    'words': (10000, lambda n: Run('subst_filter', ['bytes', *settings(n)], b'$name_0', b'1')),
    'words of one name': (10000, lambda n: Run('subst_filter', ['bytes', *n * ['name=1']], b'$name', b'1')),
    'words in a hash map': (5000, lambda n: fill_in_names(n, 'subst_filter', 'bytes', *settings(n))),
    'variables': (256 * KIB, lambda n: Run('subst_filter', ['bytes', 'a=1'], n * b'$a ', n * b'1 ')),
    'escapes': (256 * KIB, lambda n: Run('subst_filter', ['bytes'], n * b'\\$', n * b'$')),
    'nested defaults': (256 * KIB, lambda n: Run('subst_filter', ['bytes'], n * b'${a:' + n * b'}')),
    'braces in a default': (2 * MIB, lambda n: Run('subst_filter', ['bytes'], b'${a:' + n * b'{' + n * b'}' + b'}',
                                                          n * b'{' + n * b'}')),
    'unclosed defaults': (512 * KIB, lambda n: Run('subst_filter', ['bytes'], n * b'${a:\\x', faults=1)),
    'sets': (5000, lambda n: fill_in_names(n, 'subst_cli', *settings(n, '-s'))),
    'chosen names': (5000, lambda n: fill_in_names(n, 'subst_cli', *(f'--only={name}' for name in names(n)),
                                                   *settings(n, '-s'))),
    'known names': (5000, lambda n: fill_in_names(n, 'subst_cli', '--known', *settings(n, '-s'))),
    'texts of a shell': (64 * KIB, lambda n: Run('subst_cli', ['--shell', '-sb='], n * b'${a:-' + n * b'}')),
    'unclosed messages of a shell': (64 * KIB, lambda n: Run('subst_cli', ['--shell', '-sb='], n * b'${a:?', faults=1)),
    'missing in texts of a shell': (4000, lambda n: check(n * b'$$ ${a:?}\n', '--shell', '-sb=', faults=n)),
    'escaped values': (5000, lambda n: Run('subst_cli', ['--escape=sh', *settings(n, '-s')],
                                           source_of(n).encode(), n * b"'1'")),
    'lines of values': (5000, lambda n: Run('subst_cli', ['-f', '-', '/dev/null'], source_of(n, '{}=\n').encode())),
    'lines of .env files': (5000, lambda n: Run('subst_cli', ['--dotenv', '-', '/dev/null'], n * b'A="${A-}"\n')),
    'lines of one name': (5000, lambda n: Run('subst_cli', ['-f', '-', '/dev/null'], n * b'name=1\n')),
    'files': (5000, lambda n: Run('subst_cli', n * ['/dev/null'], b'')),
    'missing in lines': (4000, lambda n: check(n * b'$a ${a}\n', faults=2 * n)),
    'missing in bytes': (4000, lambda n: check(n * b'$a ${a}\n', '--bytes', faults=2 * n)),
    'missing in texts of envsubst': (4000, lambda n: check(n * b'$a ${a}\n', '--envsubst', faults=2 * n)),
    'missing names': (5000, lambda n: check(source_of(n).encode(), faults=n)),
    'listed names': (5000, lambda n: print_names(source_of(n))),
    'listed defaults': (64 * KIB, lambda n: Run('subst_cli', ['--names'], n * b'${a:' + n * b'}',
                                                b'a\t<stdin>:1:3\tdefault\t' + 60 * b'${a:' + '\u2026\n'.encode())),
    'listed names of envsubst': (5000, lambda n: print_names(source_of(n), '--envsubst')),
    'fault after members of json': (20000, lambda n: check(numbered(n, b'{%b"b":"$"}', b'"a%d":"$a",'),
                                                           '--json', '-sa=1')),
    'faults of json': (20000, lambda n: check(b'[' + n * b'"$",' + b'1]', '--json', faults=n)),
    'missing in json': (4000, lambda n: check(b'[' + n * b'"$a $a",' + b'1]', '--json', faults=2 * n)),
    'listed names of json': (4000, lambda n: Run('subst_cli', ['--json', '--names'], b'[' + n * b'"$a $a",' + b'1]',
                                                 b'a\t<stdin>:1:4\trequired\n')),
    'fault after escapes of json': (256 * KIB, lambda n: check(b'"' + n * b'\\u0061' + b'$"', '--json')),
    'fault after pairs of toml': (5000, lambda n: check(numbered(n, b'%bb = "$"', b'a%d = "$a"\n'), '--toml', '-sa=1')),
    'faults of toml': (20000, lambda n: check(b'a = [' + n * b'"$",' + b']\n', '--toml', faults=n)),
    'missing in toml': (4000, lambda n: check(numbered(n, b'%b', b'a%d = "$a $a"\n'), '--toml', faults=2 * n)),
    'fault after escapes of toml': (256 * KIB, lambda n: check(b'a = "' + n * b'\\u0061' + b'$"\n', '--toml')),
    'call for variables': (20000, lambda n: call('variables', source_of(n), wanted=names_in(source_of(n)))),
    'call for what is missing': (10000, lambda n: call('missing', source_of(2 * n), values(n),
                                                       wanted=names_in(source_of(2 * n))[n:])),
    'call with pairs': (20000, lambda n: call('fill_in', source_of(n), values(n), wanted=n * '1')),
    'call with rows': (20000, lambda n: Call(
        lambda module, rows=n * [{'a': '1'}]: module.Template('$a').fill_in_each(rows), n * ['1'])),
    'call for a fault': (MIB, lambda n: call('fill_in', n * 'a\n' + '$', {}, wanted=2 * n)),
    'call for json': (10000, lambda n: call('fill_in_json', f'[{source_of(n, STRING)}1]', values(n),
                                            wanted='[' + n * '"1",' + '1]')),
    'call for a fault of json': (20000, lambda n: call('fill_in_json', '[' + n * '"a",' + '"$"]', {},
                                                       wanted=4 * n + 2)),
    'call for toml': (10000, lambda n: call('fill_in_toml', f'a = [{source_of(n, STRING)}]', values(n),
                                            wanted='a = [' + n * '"1",' + ']')),
    'call for yaml': (10000, lambda n: call('fill_in_yaml', source_of(n, '- ${{{}}}\n'), values(n), wanted=n * '- 1\n')),
    'call for a fault of yaml': (20000, lambda n: call('fill_in_yaml', n * '- a\n' + '- $', {}, wanted=4 * n + 2)),
}


def time_of(it, module):
    """Returns the least processor time of some runs, in seconds."""
    return min(it.seconds(module) for _ in range(RUNS))


class Slowness(Built):
    """Runs that take at most a fixed multiple of the time for more."""
    programs = 'subst_filter', 'subst_cli'

    def test_works_grow_little(self):
        module = installed.module()
        for name, (count, work) in WORKS.items():
            with self.subTest(name):
                few, many = time_of(work(count), module), time_of(work(MORE * count), module)
                for _ in range(RUNS, MOST_RUNS, RUNS):
                    if many < max(MOST * few, LEAST):
                        break
                    few, many = min(few, time_of(work(count), module)), min(many, time_of(work(MORE * count), module))
                self.assertLess(many, max(MOST * few, LEAST), f'seconds for {MORE} times {count}, in {few:.3f} s')
