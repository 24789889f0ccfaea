"""Helpers of all tests: runs of programs, pipes and limits, and cases that have a folder of their own."""
import contextlib
import ctypes
import functools
import os
import pathlib
import random
import re
import resource
import shutil
import subprocess
import tempfile
import unittest
from typing import NamedTuple

from building import CRATES, PROGRAMS, TOP, build, builds_of, path_of, version

# The most seconds of a run. Each takes less than one on an idle machine.
SECONDS = 30
KIB = 1 << 10
MIB = 1 << 20
GIB = 1 << 30
# The seed of random sizes, which a failure names. The environment can set it, to draw the same sizes again.
SEED = os.environ.get('SEED') or str(random.randrange(10 ** 6))
# The folder of the tests' folders, and of what is compiled for them.
SCRATCH = tempfile.TemporaryDirectory()


class End(NamedTuple):
    """The end of a program: its status, its output and its errors."""
    status: int
    output: bytes
    errors: bytes


# Running programs


# The hints of `subst`, which are printed besides its messages.
HINT = re.compile(rb'^\S.*?: hint: .*\n', re.MULTILINE)


def run(crate, words=(), source=b'', name=None, **options):
    """Runs the program of a crate under its path or another name. Returns how it ended, without hints."""
    end = run_with_hints(crate, words, source, name, **options)
    return end._replace(errors=HINT.sub(b'', end.errors))


def run_with_hints(crate, words=(), source=b'', name=None, **options):
    """Runs the program of a crate under its path or another name. The source is its input, through a pipe, unless the
    options, those of subprocess.run, set an input. The output is captured unless they set one."""
    if 'stdin' not in options:
        options['input'] = source
    for stream in ('stdout', 'stderr'):
        options.setdefault(stream, subprocess.PIPE)
    options.setdefault('executable', path_of(crate))
    ran = subprocess.run([name or path_of(crate), *words], timeout=SECONDS, **options)
    return End(ran.returncode, ran.stdout or b'', ran.stderr or b'')


def ended(command, **options):
    """Runs any command. Returns how it ended, with its standard error in its output."""
    usual = {'stdin': subprocess.DEVNULL, 'stdout': subprocess.PIPE, 'stderr': subprocess.STDOUT, 'timeout': SECONDS}
    return subprocess.run(command, text=True, check=False, **{**usual, **options})


def ran(command, **options):
    """Runs any command, which has to end with status 0. Returns its output."""
    end = ended(command, **options)
    assert end.returncode == 0, f'{command} ends with status {end.returncode}: {end.stdout}'
    return end.stdout


@functools.lru_cache(None)
def compiled(source, *options):
    """Compiles a file of C in tests/. Returns the path of the result."""
    made = pathlib.Path(tempfile.mkdtemp(dir=SCRATCH.name)) / pathlib.Path(source).stem
    strict = ['-O2', '-Wall', '-Wextra', '-Werror']
    subprocess.run([os.environ.get('CC') or 'cc', *strict, *options, '-o', made, TOP / 'tests' / source], check=True)
    return made


def preloading(source, **variables):
    """Returns the environment in which a program is run with a preloaded library of tests/."""
    return {'LD_PRELOAD': str(compiled(source, '-shared', '-fPIC')), **variables}


def limited(kind, amount):
    """Returns the option that limits a resource of a run."""
    return {'preexec_fn': lambda: resource.setrlimit(kind, (amount, amount))}


def in_memory(amount):
    """Returns the option that runs a program in this many bytes of memory."""
    return limited(resource.RLIMIT_AS, amount)


def without(stream):
    """Returns the options that run a program with a standard stream closed."""
    name = ('stdin', 'stdout', 'stderr')[stream]
    return {name: None, 'preexec_fn': lambda: os.close(stream)}


def with_entries(crate, arguments, entries):
    """Returns the option that runs the program of a crate with these arguments, its name first, and these entries as
    its environment, which may be malformed or have a name twice."""
    def strings(items):
        return (ctypes.c_char_p * (len(items) + 1))(*items, None)

    path, libc = os.fsencode(path_of(crate)), ctypes.CDLL(None)
    return {'preexec_fn': lambda: libc.execve(path, strings(arguments), strings(entries))}


# Pipes and files


@contextlib.contextmanager
def pipe():
    """Opens a pipe. Its ends are to read from and to write to."""
    reader, writer = os.pipe()
    try:
        yield reader, writer
    finally:
        os.close(reader)
        os.close(writer)


@contextlib.contextmanager
def unread_pipe():
    """Opens the writing end of a pipe that has no reader."""
    reader, writer = os.pipe()
    os.close(reader)
    try:
        yield writer
    finally:
        os.close(writer)


def fill(writer):
    """Fills a pipe. Returns how many bytes it holds."""
    os.set_blocking(writer, False)
    count = 0
    with contextlib.suppress(BlockingIOError):
        while True:
            count += os.write(writer, b'a' * 4096)
    return count


def left_in(reader):
    """Returns the bytes in a pipe, which holds less than 1 MiB."""
    os.set_blocking(reader, False)
    return os.read(reader, MIB)


@contextlib.contextmanager
def file_of(data):
    """Opens a new file with this data."""
    with tempfile.TemporaryFile() as file:
        file.write(data)
        file.seek(0)
        yield file


# Sizes and texts


def some_size(least, most=64 * MIB):
    """Returns a random size between these two, in each doubling with equal probability, so that no program has a hidden
    limit."""
    return round(least * (most / least) ** random.random())


# Characters that a message of `subst` escapes by their numbers: those that a terminal obeys, and invisible ones.
HIDDEN = re.compile('[\0-\x1f\x7f-\x9f\xad\u034f\u061c\u115f\u1160\u17b4\u17b5\u180b-\u180f\u200b-\u200f'
                    '\u2028-\u202e\u2060-\u206f\u3164\ufe00-\ufe0f\ufeff\uffa0\ufff0-\ufffb\U0001bca0-\U0001bca3'
                    '\U0001d173-\U0001d17a\U000e0000-\U000e0fff]')


def as_told(text):
    """Returns a text as messages of `subst` show it."""
    return HIDDEN.sub(lambda it: f'\\u{{{ord(it[0]):x}}}', text.replace('\t', ' '))


def shown(value):
    """Returns a status as it is, or the start of some bytes and their length."""
    if isinstance(value, int) or len(value) <= 80:
        return repr(value)
    return f'{value[:80]!r}.. ({len(value)} bytes)'


# Cases


def needs(*programs):
    """Skips a test, or all tests of a class, unless these programs are installed."""
    missing = [program for program in programs if shutil.which(program) is None]
    return unittest.skipIf(missing, f'not installed: {", ".join(missing)}')


def assert_ends(end, status, output=b'', errors=b''):
    """Fails unless a program ended like this."""
    for field, found, wanted in zip(End._fields, end, End(status, output, errors)):
        assert found == wanted, f'{field} is {shown(found)} and not {shown(wanted)}'


class Case(unittest.TestCase):
    """Tests that each run in an empty folder, with random numbers from the seed and their names."""
    seed = SEED
    assert_ends = staticmethod(assert_ends)

    def setUp(self):
        resource.setrlimit(resource.RLIMIT_CORE, (0, 0))
        random.seed(f'{self.seed} {self.id()}')
        self.addCleanup(os.chdir, os.getcwd())
        folder = tempfile.TemporaryDirectory(dir=SCRATCH.name)
        self.addCleanup(folder.cleanup)
        os.chdir(folder.name)

    def shortDescription(self):
        """Returns the seed, for reports of a test."""
        return f'SEED={self.seed}'

    def need_to_run(self, *command):
        """Skips the test unless a command is installed, and exits with status 0 here."""
        is_there = shutil.which(command[0]) is not None
        if not is_there or ended(command).returncode != 0:
            self.skipTest(f"{command[0]} {'cannot do this here' if is_there else 'is not installed'}")


class Tried(Case):
    """Tests of programs that `rt try` runs without a proof, and `rt ci` runs proved."""


class Built(Case):
    """Tests of proved and built programs, named by their crates."""
    programs = ()

    @classmethod
    def setUpClass(cls):
        super().setUpClass()
        for crate in cls.programs:
            assert build(crate), f'{crate} is neither proved nor built'
