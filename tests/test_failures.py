"""Failing reads, writes, pipes and signals, and a lack of memory, in runs of both programs.

No contract covers messages, the output before a failed write, and how much memory is enough.
"""
import contextlib
import errno
import os
import resource
import signal
import subprocess
import time
import tty
from typing import NamedTuple

from faults import missing_name
from tests.subst import NO_NAME, Subst, failed, failed_since, subst, told, write
from tests.support import (GIB, KIB, MIB, SECONDS, Built, End, file_of, in_memory, left_in, limited, path_of, pipe,
                           preloading, run, shown, some_size, unread_pipe, without)

FILTER, COMMAND = 'subst_filter', 'subst_cli'
# All bytes that expand to themselves, also outside UTF-8, and a text that does.
PLAIN = bytes(byte for byte in range(256) if byte not in b'\\$')
TEXT = b'Each line of this text is the same as all others.\n'
HELLO = b'Hello $name!'


class Way(NamedTuple):
    """A program, with arguments that expand `$name` to `world`."""
    crate: str
    words: list

    @property
    def is_filter(self):
        return self.crate == FILTER

    def run(self, source=b'', **options):
        """Runs the program. Returns how it ended."""
        return run(self.crate, self.words, source, **{'name': 'subst', 'env': {'name': 'world'}, **options})

    def failed(self, stream, number):
        """Returns the message about a stream that fails with this error number."""
        if self.is_filter:
            return b'subst: read failed\n' if stream == 'stdin' else b'subst: write failed\n'
        return failed(f'<{stream}>', number)

    @contextlib.contextmanager
    def started(self, source=subprocess.PIPE):
        """Starts the program on a pipe or a file. SIGUSR1 interrupts its system calls. It is ended with the block."""
        env = preloading('slow_devices.c', name='world')
        with subprocess.Popen(['subst', *self.words], executable=path_of(self.crate), bufsize=0, env=env, stdin=source,
                              stdout=subprocess.PIPE, stderr=subprocess.PIPE) as ran:
            try:
                yield ran
            finally:
                ran.kill()


WAYS = (Way(FILTER, ['bytes', 'name=world']), Way(FILTER, ['text', 'name=world']), Way(FILTER, ['env']),
        Way(COMMAND, ['-sname=world']), Way(COMMAND, ['--bytes', '-sname=world']), Way(COMMAND, ['-e']))
# Programs that write the output, or the names in the source.
WRITERS = (*WAYS, Way(COMMAND, ['--names']))


def end_of(ran, rest=None):
    """Writes the rest of its input to a running program. Returns how it ended."""
    output, errors = ran.communicate(rest, timeout=SECONDS)
    return End(ran.returncode, output, errors)


def interrupt(ran):
    """Interrupts a program that waits for one of its streams. Returns when it waits again or has ended."""
    until_it_waits(ran)
    assert ran.poll() is None, 'the program has ended'
    ran.send_signal(signal.SIGUSR1)
    until_it_waits(ran)


def until_it_waits(ran):
    """Returns when a program waits, or has ended."""
    end = time.monotonic() + SECONDS
    while ran.poll() is None and not waits(ran.pid):
        assert time.monotonic() < end, 'the program waits for nothing'
        time.sleep(0.002)


def waits(process):
    """Returns whether a process sleeps with a handler of SIGUSR1, and none is pending."""
    with open(f'/proc/{process}/status', encoding='ascii', errors='replace') as status:
        fields = dict(line.rstrip('\n').split(':\t', 1) for line in status)

    def has_signal(mask):
        return int(fields[mask], 16) >> signal.SIGUSR1 - 1 & 1 == 1

    return fields['State'].startswith('S') and has_signal('SigCgt') and not has_signal('ShdPnd')


def long_text():
    """Returns a text that expands to itself, and is longer than a pipe holds."""
    return TEXT * some_size(3000, 300000)


class Reads(Built):
    """Input that comes slowly, or can't be read."""
    programs = FILTER, COMMAND

    def test_input_that_comes_in_pieces(self):
        for way in WAYS:
            with self.subTest(way), way.started() as ran:
                for part in (b'Hello ${', b'na', b'me'):
                    ran.stdin.write(part)
                    time.sleep(0.05)
                self.assert_ends(end_of(ran, b'}!'), 0, b'Hello world!')

    def test_read_that_fails(self):
        folder = os.open('.', os.O_RDONLY)
        self.addCleanup(os.close, folder)
        for way in WAYS:
            with self.subTest(way), pipe() as (reader, _):
                os.set_blocking(reader, False)
                self.assert_ends(way.run(stdin=folder), 3, errors=way.failed('stdin', errno.EISDIR))
                self.assert_ends(way.run(**without(0)), 3, errors=way.failed('stdin', errno.EBADF))
                self.assert_ends(way.run(stdin=reader), 3, errors=way.failed('stdin', errno.EAGAIN))

    def test_read_that_fails_half_way(self):
        """The input is a terminal that hangs up after the source, so that the next read fails."""
        for way in WAYS:
            with self.subTest(way):
                terminal, other = os.openpty()
                tty.setraw(other)
                os.write(other, HELLO)
                os.close(other)
                end = way.run(stdin=terminal)
                os.close(terminal)
                self.assert_ends(end, 3, errors=way.failed('stdin', errno.EIO))

    def test_read_that_is_interrupted(self):
        """The filter fails, and `subst` continues reading."""
        for way in WAYS:
            for before in (b'', b'Hello $na'):
                with self.subTest(way), way.started() as ran:
                    ran.stdin.write(before)
                    interrupt(ran)
                    if way.is_filter:
                        self.assert_ends(end_of(ran), 3, errors=way.failed('stdin', errno.EINTR))
                    else:
                        self.assert_ends(end_of(ran, HELLO[len(before):]), 0, b'Hello world!')


class Writes(Built):
    """Output and messages that can't be written."""
    programs = FILTER, COMMAND

    def test_write_that_fails(self):
        for way in WRITERS:
            for count in (1, some_size(KIB)):
                with self.subTest(way), open('/dev/full', 'wb') as full:
                    source = b'a' * count + b'${a:}'
                    self.assert_ends(way.run(source, stdout=full), 3, errors=way.failed('stdout', errno.ENOSPC))
                    self.assert_ends(way.run(source, **without(1)), 3, errors=way.failed('stdout', errno.EBADF))

    def test_pipe_that_is_closed(self):
        """Python ignores SIGPIPE and SIGXFSZ. With `restore_signals` the program starts with their default actions."""
        for way in WRITERS:
            for restored in (True, False):
                with self.subTest(way), unread_pipe() as writer:
                    end = way.run(b'a${a:}', stdout=writer, restore_signals=restored)
                    self.assert_ends(end, 3, errors=way.failed('stdout', errno.EPIPE))

    def test_pipe_that_is_closed_half_way(self):
        for way in WAYS:
            text = long_text()
            with self.subTest(way), file_of(text) as file, way.started(file) as ran:
                taken = ran.stdout.read(10)
                ran.stdout.close()
                errors = ran.stderr.read()
                end = End(ran.wait(SECONDS), taken, errors)
                self.assert_ends(end, 3, text[:10], way.failed('stdout', errno.EPIPE))

    def test_write_that_a_signal_cuts_short(self):
        """The pipe is full. The write ends with the bytes that it has moved, and the program writes the rest."""
        for way in WAYS:
            text = long_text()
            with self.subTest(way), file_of(text) as file, way.started(file) as ran:
                interrupt(ran)
                self.assert_ends(end_of(ran), 0, text)

    def test_write_that_is_interrupted(self):
        """The second signal comes before the next write moves a byte: the filter fails, and `subst` goes on."""
        for way in WAYS:
            text = long_text()
            with self.subTest(way), file_of(text) as file, way.started(file) as ran:
                interrupt(ran)
                interrupt(ran)
                end = end_of(ran)
                if way.is_filter:
                    self.assert_ends(end, 3, text[:len(end.output)], way.failed('stdout', errno.EINTR))
                    self.assertTrue(0 < len(end.output) < len(text), f'{len(end.output)} bytes were written')
                else:
                    self.assert_ends(end, 0, text)

    def test_reads_and_writes_of_1_byte(self):
        env = preloading('slow_devices.c', DEVICE_BYTES='1', name='world')
        for way in WAYS:
            with self.subTest(way):
                self.assert_ends(way.run(HELLO * 300, env=env), 0, b'Hello world!' * 300)
                line = b'' if way.words[0] == 'bytes' else b'  $\n  ^\n'
                message = told('<stdin>:1:1', NO_NAME, '$', '^')
                errors = f'subst: {missing_name()}\n'.encode() + line if way.is_filter else message
                self.assert_ends(way.run(b'$', env=env), 1, errors=errors)
        usage = b'usage: subst_filter bytes|text|env [NAME=VALUE]...\n'
        self.assert_ends(run(FILTER, [], env=env), 2, errors=usage)

    def test_prefix_is_written_where_a_later_write_fails(self):
        for way in WAYS:
            result = (PLAIN if way.words[0].strip('-') == 'bytes' else TEXT) * some_size(3000, 50000)
            with self.subTest(way), pipe() as (reader, writer), open('output', 'w+b') as file:
                os.set_blocking(writer, False)
                self.assert_ends(way.run(result, stdout=writer), 3, errors=way.failed('stdout', errno.EAGAIN))
                written = left_in(reader)
                self.assertTrue(written and result.startswith(written), f'a pipe was written {shown(written)}')
                options = limited(resource.RLIMIT_FSIZE, 1000)
                end = way.run(result, stdout=file, restore_signals=False, **options)
                self.assert_ends(end, 3, errors=way.failed('stdout', errno.EFBIG))
                file.seek(0)
                self.assertEqual(file.read(), result[:1000])

    def test_status_stays_where_standard_error_fails(self):
        wrong = {FILTER: (([], 2), (['bytes', b'\xff=1'], 3)), COMMAND: ((['--wrong'], 2), (['nothing'], 3))}
        for way in WAYS:
            with self.subTest(way), open('/dev/full', 'wb') as full:
                self.assert_ends(way.run(HELLO, **without(2)), 0, b'Hello world!')
                for options in (without(2), {'stderr': full}):
                    self.assert_ends(way.run(b'$', **options), 1)
                    for words, status in wrong[way.crate]:
                        self.assert_ends(way._replace(words=words).run(**options), status)


class Files(Subst):
    """Unreadable files of `subst`, and closed streams that it doesn't need."""

    def test_inputs_that_cannot_be_read(self):
        self.assert_failed(['nothing', '.'], failed('nothing', errno.ENOENT), failed('.', errno.EISDIR))
        write('file', b'a')
        self.assert_failed(['file/x', ''], failed('file/x', errno.ENOTDIR), failed('', errno.ENOENT))
        self.assert_done(['file'], output=b'a', **without(0))
        with open('write-only', 'wb') as file:
            self.assert_failed([], failed('<stdin>', errno.EBADF), stdin=file)

    def test_streams_that_are_not_needed(self):
        with open('/dev/full', 'wb') as full:
            for words in ([], ['--names']):
                self.assert_refused(words, b'$', told('<stdin>:1:1', NO_NAME, '$', '^'), stdout=full)
                self.assert_ends(subst(words, b'$', stderr=full), 1)
        self.assert_done(['-o', 'new'], b'a', **without(1))
        self.assert_file('new', b'a')
        self.assert_done(['-i', 'new'], **without(2))


class Memory(Subst):
    """A lack of memory."""
    programs = FILTER, COMMAND

    def test_memory_that_runs_out_in_the_filter(self):
        """Memory isn't enough for the input, for the stack of open braces, or for the output."""
        for words, source in (([], b'a' * (80 * MIB)), ([], 2000000 * b'${a:' + 2000000 * b'}'),
                              (['a=' + 100000 * 'v'], 1000000 * b'$a ')):
            end = run(FILTER, ['bytes', *words], source, **in_memory(64 * MIB))
            self.assert_ends(end, 4, errors=b'subst: out of memory\n')

    def test_memory_that_runs_out_in_subst(self):
        write('sparse', b'')
        os.truncate('sparse', 256 * MIB)
        write('growing', b'$A' * 10000)
        write('small', b'$A')
        for file, size in (('sparse', 256 * MIB), ('growing', 20000)):
            for more in ([], ['-o', 'old'], ['-o', 'new'], ['--check'], ['-i']):
                write('old', b'old')
                named = 'subst' if file == 'growing' and more[:1] in ([], ['-o']) else file
                self.assert_out_of_memory([f'-sA={"a" * 10000}', *more, file], failed_since(named, 'out of memory'))
                self.assert_file('old', b'old')
                self.assertEqual(os.path.getsize(file), size)
                self.assert_files('growing', 'old', 'small', 'sparse')
        errors = failed_since('sparse', 'out of memory')
        self.assert_out_of_memory(['sparse', 'nothing'], errors + failed('nothing', errno.ENOENT))
        self.assert_out_of_memory(['-f', 'sparse'], errors)
        self.assert_out_of_memory(['-i', '-sA=1', 'sparse', 'small'], errors)
        self.assert_file('small', b'1')

    def assert_out_of_memory(self, words, errors):
        """Fails the test unless `subst` reports that 64 MiB of memory aren't enough."""
        self.assert_ends(subst(words, **in_memory(64 * MIB)), 4, errors=errors)

    def test_memory_that_runs_out_at_each_request(self):
        for way in filter(lambda way: way.is_filter, WAYS):
            with self.subTest(way):
                self.refuse_in_turn(way, b'Hello ${who:$name}!', b'Hello world!')

    def refuse_in_turn(self, way, source, output):
        """Runs the program again and again, and refuses another request for memory in each run, until none is left.
        Each run has to end as without a refusal, or out of memory."""
        times = 0
        for request in range(1, 1000):
            report = os.path.abspath('report')
            refusing = preloading('refuse_memory.c', REFUSE_REQUEST=str(request), REFUSE_REPORT=report)
            end = way.run(source, env={'name': 'world', **refusing})
            is_refused = os.path.exists(report)
            if is_refused:
                os.remove(report)
            if is_refused and end.status != 0:
                self.assert_ends(end, 4, errors=b'subst: out of memory\n')
                times += 1
            else:
                self.assert_ends(end, 0, output)
            if not is_refused:
                self.assertGreaterEqual(times, 4)
                return
        self.fail('no end of requests for memory')

    def test_input_that_is_too_long_for_memory(self):
        with open('long', 'w+b') as file, open('/dev/zero', 'rb') as endless:
            file.truncate(GIB)
            for way in WAYS:
                for source in (file, endless):
                    errors = b'subst: out of memory\n' if way.is_filter else failed_since('<stdin>', 'out of memory')
                    self.assert_ends(way.run(stdin=source, **in_memory(64 * MIB)), 4, errors=errors)
