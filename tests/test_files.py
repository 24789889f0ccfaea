"""Output files of `subst`, written whole or not at all, also if it is killed or system calls fail."""
import errno
import functools
import os
import random
import re
import resource
import shutil
import subprocess
import time
import unittest

from tests.subst import (NOBODY, NO_NAME, PROGRAM, Subst, by_another_user, drawn, failed, failed_since, missing,
                         mode_of, not_replaced, read, subst, told, write)
from tests.support import KIB, MIB, SECONDS, limited, path_of, pipe, run, run_with_hints, shown, some_size


class Output(Subst):
    """The file of --output."""

    def test_output(self):
        write('template', b'a$A\n')
        for words in (['-onew'], ['-o', 'new'], ['--output=new'], ['--output', 'new']):
            self.assert_done([*words, '-sA=1', 'template', 'template'])
            self.assert_file('new', b'a1\na1\n')
            os.remove('new')
        os.mkdir('folder')
        self.assert_done(['-o', 'folder/new', '-sA=1'], b'$A')
        self.assert_file('folder/new', b'1')
        self.assert_done(['-o', 'empty'], b'')
        self.assert_file('empty', b'')
        self.assert_files('template', 'folder', 'empty')
        self.assert_files('new', folder='folder')

    def test_output_that_is_new_has_the_mode_of_the_mask(self):
        for mask in (0o022, 0o027, 0o077, 0):
            self.assert_done(['-o', f'new-{mask}'], b'a', preexec_fn=functools.partial(os.umask, mask))
            self.assert_mode(f'new-{mask}', 0o666 & ~mask)

    def test_new_output_has_the_mode_of_its_template(self):
        for mode in (0o600, 0o640, 0o755, 0o444, 0o4755):
            template = f'template-{mode:o}'
            write(template, b'$A', mode)
            for mask in (0o022, 0o077, 0):
                options = {'preexec_fn': functools.partial(os.umask, mask)}
                self.assert_done(['-o', 'new', '-sA=1', template], **options)
                self.assert_done(['-O', 'folder', '-sA=1', template], **options)
                for file in ('new', f'folder/{template}'):
                    self.assert_file(file, b'1')
                    self.assert_mode(file, mode & 0o777 & ~mask)
                    os.remove(file)
                # The mode isn't taken from several files, or from something that is no file.
                self.assert_done(['-o', 'new', '-sA=1', template, template], **options)
                self.assert_mode('new', 0o666 & ~mask)
                os.remove('new')
        write('-', b'', 0o600)
        for file in ('-', '/dev/stdin'):
            self.assert_done(['-o', f'new{os.path.basename(file)}', file], b'a',
                             preexec_fn=functools.partial(os.umask, 0o022))
            self.assert_mode(f'new{os.path.basename(file)}', 0o644)

    def test_output_that_is_there_keeps_its_mode(self):
        modes = {f'file-{mode:o}': mode for mode in (0o600, 0o640, 0o755, 0o400, 0o666)}
        for file, mode in modes.items():
            write(file, b'old', mode)
            self.assert_done(['-o', file], b'new', preexec_fn=functools.partial(os.umask, 0o027))
            self.assert_file(file, b'new')
            self.assert_mode(file, mode)
        self.assert_files(*modes)

    def test_output_that_is_an_input(self):
        write('file', b'$A\n')
        self.assert_done(['-o', 'file', '-sA=1', 'file', 'file'])
        self.assert_file('file', b'1\n1\n')
        self.assert_refused(['-o', 'file', 'file', '-'], b'$A', missing('A', '<stdin>:1:2', '$A', ' ^'))
        self.assert_file('file', b'1\n1\n')
        self.assert_files('file')

    def test_output_follows_links(self):
        os.mkdir('folder')
        write('folder/file', b'old', 0o640)
        os.symlink('folder/file', 'link')
        os.symlink('link', 'second')
        os.symlink('folder/new', 'dangling')
        os.symlink(os.path.abspath('absolute'), 'folder/dangling')
        self.assert_done(['-o', 'second'], b'new')
        self.assert_done(['-o', 'dangling'], b'new')
        self.assert_done(['-o', 'folder/dangling'], b'new')
        for file in ('folder/file', 'folder/new', 'absolute'):
            self.assert_file(file, b'new')
        self.assert_mode('folder/file', 0o640)
        self.assertTrue(all(map(os.path.islink, ('link', 'second', 'dangling', 'folder/dangling'))),
                        'a link was replaced')
        self.assert_files('folder', 'link', 'second', 'dangling', 'absolute')
        self.assert_files('file', 'new', 'dangling', folder='folder')

    def test_output_writes_through_what_is_no_file(self):
        with pipe() as (reader, writer):
            self.assert_done(['-o', '/dev/stdout'], b'new', stdout=writer)
            self.assertTrue(os.read(reader, 10) == b'new', 'the pipe has something else')
        os.mkfifo('fifo')
        reader = os.open('fifo', os.O_RDONLY | os.O_NONBLOCK)
        self.assert_done(['-o', 'fifo'], b'new')
        self.assertTrue(os.read(reader, 10) == b'new', 'the named pipe has something else')
        os.close(reader)
        self.assert_done(['-o', '/dev/null'], b'new')
        self.assert_failed(['-o', '/dev/full'], failed('/dev/full', errno.ENOSPC), source=b'new')
        self.assert_refused(['-o', '/dev/full'], b'$', told('<stdin>:1:1', NO_NAME, '$', '^'))
        self.assert_files('fifo')

    def test_output_to_standard_output(self):
        for file in ('-', '/dev/stdout'):
            write('log', b'before\n')
            with open('log', 'ab') as log:
                self.assert_done(['-o', file], b'after', stdout=log)
            self.assert_file('log', b'before\nafter')
        with open('/dev/full', 'wb') as full:
            self.assert_failed(['-o', '-'], failed('<stdout>', errno.ENOSPC), source=b'new', stdout=full)
        self.assert_files('log')

    def test_output_to_what_is_open_is_written_through(self):
        rows = (('/dev/fd/1', 1), ('/proc/self/fd/1', 1), ('//dev/stdout', 1), ('log', 1), ('link', 1),
                ('/dev/stderr', 2), ('/dev/fd/2', 2), ('log', 2), ('link', 2), ('/dev/fd/{}', None),
                ('/proc/self/fd/{}', None))
        for file, stream in rows:
            write('log', b'before\n')
            node = os.stat('log').st_ino
            with open('log', 'ab') as log:
                file = file.format(log.fileno())
                target = {1: '/dev/stdout', 2: '/dev/stderr', None: f'/dev/fd/{log.fileno()}'}[stream]
                os.symlink(target, 'link')
                options = {1: {'stdout': log}, 2: {'stderr': log}, None: {'pass_fds': [log.fileno()]}}[stream]
                self.assert_done(['-o', file], b'after', **options)
                os.remove('link')
            self.assert_file('log', b'before\nafter')
            self.assertEqual(os.stat('log').st_ino, node, f'{file}: the log was replaced')
        write('log', b'$A')
        with open('log', 'rb') as log:
            self.assert_done(['-o', 'log', '-sA=1'], stdin=log)
        self.assert_file('log', b'1')
        with open('log', 'ab') as log:
            self.assert_done(['-i', 'log'], stdout=log)
        self.assert_file('log', b'1')
        self.assert_files('log')

    def test_output_that_cannot_be_written(self):
        os.mkdir('folder')
        write('file', b'old')
        os.symlink('loop', 'loop')
        os.symlink('nothing/new', 'dangling')
        rows = (('folder', errno.EISDIR), ('.', errno.EISDIR), ('nothing/new', errno.ENOENT),
                ('file/new', errno.ENOTDIR), ('loop', errno.ELOOP), ('dangling', errno.ENOENT),
                ('/proc/new', errno.ENOENT), ('new/', errno.ENOTDIR), ('', errno.ENOENT),
                ('n' * 300, errno.ENAMETOOLONG))
        for target, number in rows:
            self.assert_failed(['-o', target], failed(target, number), source=b'new')
        self.assert_files('folder', 'file', 'loop', 'dangling')
        self.assert_files(folder='folder')
        self.assert_file('file', b'old')

    def test_files_and_folders_of_another_user(self):
        options = by_another_user()
        os.mkdir('folder')
        write('folder/file', b'$A')
        write('secret', b'a', 0)
        os.chmod('folder', 0o555)
        denied = functools.partial(failed, number=errno.EACCES)
        self.assert_failed(['secret', 'folder/file', '-sA=1'], denied('secret'), **options)
        self.assert_failed(['-f', 'secret'], denied('secret'), **options)
        self.assert_failed(['-o', 'folder/new'], denied('folder/new'), source=b'a', **options)
        new = not_replaced('folder/file', errno.EACCES, os.path.realpath('folder/.file.subst-0'))
        self.assert_failed(['-o', 'folder/file'], new, source=b'new', **options)
        self.assert_failed(['-i', '-sA=1', 'secret', 'folder/file'], denied('secret') + new, **options)
        os.chmod('folder', 0o755)
        self.assert_files('file', folder='folder')
        self.assert_file('folder/file', b'$A')

    @unittest.skipUnless(os.getuid() == 0, 'only root can give files away')
    def test_group_stays_where_the_owner_cannot(self):
        # Groups that the other user has, and modes before and after. A file of such a group keeps its group.
        rows = ((1234, 0o660, 1234, 0o660), (1234, 0o6664, 1234, 0o664), (4321, 0o664, NOBODY, 0o644),
                (4321, 0o6676, NOBODY, 0o666), (4321, 0o674, NOBODY, 0o644))
        by_another_user()
        copy = os.path.abspath('../subst')
        os.chmod('.', 0o777)
        for group, mode, group_after, mode_after in rows:
            for words in (['-i', 'file'], ['-o', 'file']):
                write('file', b'$A')
                os.chown('file', 0, 1234)
                os.chmod('file', mode)
                options = {'user': NOBODY, 'group': NOBODY, 'extra_groups': [group], 'executable': copy}
                self.assert_done([*words, '-sA=1'], b'1', **options)
                found = os.stat('file')
                self.assertTrue((found.st_uid, found.st_gid) == (NOBODY, group_after), f'{found.st_uid}:{found.st_gid}')
                self.assert_mode('file', mode_after)


def make_templates():
    os.makedirs('templates/conf.d/deep')
    for name, text in (('web.conf.in', b'port $PORT\n'), ('conf.d/a.conf.in', b'a'), ('conf.d/deep/b.in', b'$PORT'),
                       ('README', b'$'), ('.hidden.in', b'h')):
        write(f'templates/{name}', text)


class OutputFolder(Subst):
    """The files of --output-folder."""

    def test_output_folder_of_a_folder(self):
        make_templates()
        self.assert_done(['-sPORT=80', '-O', 'out/of/it', '--strip=.in', 'templates'])
        self.assert_files('web.conf', 'conf.d', '.hidden', folder='out/of/it')
        self.assert_file('out/of/it/web.conf', b'port 80\n')
        self.assert_file('out/of/it/conf.d/a.conf', b'a')
        self.assert_file('out/of/it/conf.d/deep/b', b'80')
        self.assert_files('templates', 'out')

    def test_output_folder_of_files(self):
        make_templates()
        os.makedirs('out')
        write('out/a.conf', b'old', 0o600)
        words = ['--output-folder=out', 'templates/conf.d/a.conf.in', 'templates/README', '--only=PORT']
        self.assert_done([*words, '--strip', '.in'])
        self.assert_files('a.conf', 'README', folder='out')
        self.assert_file('out/a.conf', b'a')
        self.assert_mode('out/a.conf', 0o600)
        self.assert_done(words)
        self.assert_files('a.conf', 'a.conf.in', 'README', folder='out')

    def test_output_folder_where_some_are_refused(self):
        make_templates()
        os.makedirs('out/conf.d')
        write('out/web.conf', b'old')
        self.assert_failed(['-O', 'out', '--strip=.in', 'templates', 'nothing'],
                           missing('PORT', 'templates/conf.d/deep/b.in:1:2', '$PORT', ' ^^^^'),
                           missing('PORT', 'templates/web.conf.in:1:7', 'port $PORT', '      ^^^^'),
                           failed('nothing', errno.ENOENT))
        self.assert_file('out/web.conf', b'old')
        self.assert_files('conf.d', 'web.conf', '.hidden', folder='out')
        self.assert_files('a.conf', folder='out/conf.d')

    def test_output_folder_with_two_of_one_name(self):
        os.makedirs('one')
        os.makedirs('two')
        for folder in ('one', 'two'):
            write(f'{folder}/a.in', folder.encode())
        errors = failed_since('two/a.in', 'not written: an earlier file has the same output path')
        self.assert_failed(['-Oout', '--strip=.in', 'one/a.in', 'two'], errors)
        self.assert_file('out/a', b'one')

    def test_output_folder_that_cannot_be_written_into(self):
        write('a', b'$A')
        self.assert_failed(['-Oa/b', '-sA=1', 'a'], failed('a/b', errno.ENOTDIR))
        self.assert_failed(['-Oa', '-sA=1', 'a'], failed('a', errno.EEXIST))
        options = by_another_user()
        for folder in ('there', 'there/old'):
            os.mkdir(folder)
        write('there/old/a', b'old', 0o444)
        for folder in ('there/old', 'there'):
            os.chmod(folder, 0o555)
        self.assert_failed(['-Othere', '-sA=1', 'a'], failed('there', errno.EACCES), **options)
        self.assert_failed(['-Othere/new', '-sA=1', 'a'], failed('there/new', errno.EACCES), **options)
        new = os.path.realpath('there/old/.a.subst-0')
        self.assert_failed(['-Othere/old', '-sA=1', 'a'], not_replaced('there/old/a', errno.EACCES, new), **options)
        for folder in ('there', 'there/old'):
            os.chmod(folder, 0o755)
        self.assert_files('old', folder='there')
        self.assert_file('there/old/a', b'old')

    def test_check_and_names_of_folders(self):
        make_templates()
        faults = (told('templates/README:1:1', NO_NAME, '$', '^'),
                  missing('PORT', 'templates/conf.d/deep/b.in:1:2', '$PORT', ' ^^^^'),
                  missing('PORT', 'templates/web.conf.in:1:7', 'port $PORT', '      ^^^^'))
        self.assert_refused(['--check', 'templates'], b'', *faults)
        self.assert_refused(['--check', '--strip=.in', 'templates'], b'', *faults[1:])
        self.assert_done(['--check', '--strip=.in', '-sPORT=1', 'templates', 'templates/conf.d/a.conf.in'])
        line = b'PORT\ttemplates/conf.d/deep/b.in:1:2\trequired\n'
        self.assert_done(['--names', '--strip=.in', 'templates'], output=line)
        self.assert_ends(subst(['--names', 'templates', '-'], b'$A'), 1, line + b'A\t<stdin>:1:2\trequired\n', faults[0])
        self.assert_failed(['--check', '-sPORT=1', '--only=PORT', 'nothing', 'templates'], failed('nothing', errno.ENOENT))
        self.assert_files('templates')

    def test_hint_of_a_suffix_that_no_file_has(self):
        make_templates()
        hint = b"subst: hint: no file name ends in '.tmpl' (--strip)\n"
        write('a.tmpl', b'')
        for files, errors in ((['templates'], hint), (['templates/README', '--only=A'], hint),
                              (['templates', 'a.tmpl'], b''), (['a.tmpl'], b'')):
            for words in (['-Oout'], ['-i'], ['--check'], ['--names']):
                end = run_with_hints(PROGRAM, ['-sPORT=1', *words, '--strip=.tmpl', *files], name='subst')
                self.assert_ends(end, 0, errors=errors)

    def test_wrong_words_of_output_folders(self):
        self.assert_wrong(['-Oout'], '--output-folder needs a file')
        self.assert_wrong(['-Oout', '-'], "--output-folder can't be used with standard input")
        for words in (['--strip=.in'], ['--strip=', '-Oout', 'a'], ['--strip=', '--check']):
            self.assert_wrong(words, '--strip needs a suffix, and one of --output-folder, --in-place, --check or --names')


# Arguments, and sources that expand to themselves.
SAME = (([], b'a\n'), (['-sA=$A'], b'$A'), (['--bytes'], b'\xff'), (['--bytes', '--only=A'], b'\xff$'),
        (['--envsubst'], b'\\$1\n'), (['--json'], b'{"b": 1.50,\r\n "a" :"1" }'), (['--json', '-sA=$A'], b'"$A"'),
        (['--toml'], b'# $A\nb=1\na= \'b\'\n'), (['--yaml'], b'# $A\r\n$A:   b\r\n--- \'b\''))


class InPlace(Subst):
    """Files that --in-place replaces."""

    def test_in_place(self):
        write('a', b'$A\n', 0o600)
        write('b', b'$A$', 0o640)
        write('c', b'${A}', 0o755)
        os.mkdir('folder')
        write('folder/d', b'$A', 0o444)
        errors = told('b:1:3', NO_NAME, '$A$', '  ^') + failed('nothing', errno.ENOENT)
        self.assert_failed(['-i', '-sA=1', 'a', 'b', 'nothing', 'c', 'folder/d'], errors)
        for file, data, mode in (('a', b'1\n', 0o600), ('b', b'$A$', 0o640), ('c', b'1', 0o755),
                                 ('folder/d', b'1', 0o444)):
            self.assert_file(file, data)
            self.assert_mode(file, mode)
        self.assert_files('a', 'b', 'c', 'folder')
        self.assert_files('d', folder='folder')
        self.assert_refused(['--in-place', 'b', 'a'], b'', told('b:1:3', NO_NAME, '$A$', '  ^'))
        write('e', b'["$A"]')
        self.assert_done(['--in-place', '--json', '-sA="', 'e'])
        self.assert_file('e', b'["\\""]')
        write('f', b'# $A\r\n$A:   {a: $A, b: "$A", c: \'$A\'}\r\n')
        self.assert_done(['--in-place', '--yaml', '-sA=it\'s', 'f'])
        self.assert_file('f', b'# $A\r\n$A:   {a: it\'s, b: "it\'s", c: \'it\'\'s\'}\r\n')

    def test_in_place_of_what_gives_itself(self):
        for words, data in SAME:
            write('a', data)
            os.utime('a', ns=(1, 1))
            node = os.stat('a').st_ino
            self.assert_done(['-i', *words, 'a'])
            self.assert_file('a', data)
            self.assertTrue((os.stat('a').st_ino, os.stat('a').st_mtime_ns) == (node, 1),
                            f'{words}: the file was written')

    def test_in_place_of_a_file_that_is_named_twice(self):
        os.mkdir('folder')
        for other in ('f', './f', 'folder/../f', 'link'):
            write('f', b'$A')
            os.symlink('f', 'link')
            self.assert_done(['-i', '-sA=$A', 'f', other])
            self.assert_file('f', b'$A')
            write('f', b'$A$B')
            self.assert_done(['-i', '-sA=$B', '-sB=2', other, 'f', 'f'])
            self.assert_file('f', b'$B2')
            write('f', b'$')
            self.assert_refused(['-i', 'f', other], b'', told('f:1:1', NO_NAME, '$', '^'))
            os.remove('link')
        # Another link to the file keeps its contents, and is filled in separately.
        write('f', b'$A')
        os.link('f', 'hard')
        self.assert_done(['-i', '-sA=$A$A', 'f', 'hard'])
        self.assert_file('f', b'$A$A')
        self.assert_file('hard', b'$A$A')

    def test_in_place_of_links(self):
        os.mkdir('folder')
        write('folder/file', b'$A', 0o640)
        os.symlink('folder/file', 'link')
        os.symlink('nothing', 'dangling')
        os.link('folder/file', 'hard')
        self.assert_failed(['-i', '-sA=1', 'link', 'dangling'], failed('dangling', errno.ENOENT))
        self.assert_file('folder/file', b'1')
        self.assert_file('hard', b'$A')
        self.assert_mode('folder/file', 0o640)
        self.assertTrue(os.readlink('link') == 'folder/file', 'the link was replaced')
        self.assert_files('folder', 'link', 'dangling', 'hard')
        self.assert_files('file', folder='folder')

    def test_in_place_of_what_is_no_file(self):
        os.mkfifo('fifo')
        write('file', b'$A')
        errors = b''.join(failed_since(file, 'not a regular file') for file in ('fifo', './fifo', '/dev/null'))
        self.assert_failed(['-i', '-sA=1', 'fifo', '.', 'file', '/dev/null'], errors)
        self.assert_file('file', b'1')
        self.assert_files('fifo', 'file')

    def test_names_of_new_files_that_are_taken(self):
        write('file', b'$A')
        write('other', b'other')
        taken = [f'.{name}.subst-{number}' for name in ('file', 'new') for number in range(4)]
        for first, second, third, fourth in (taken[:4], taken[4:]):
            write(first, b'taken')
            os.symlink('other', second)
            os.symlink('nothing', third)
            os.mkdir(fourth)
        self.assert_done(['-i', '-sA=1', 'file'])
        self.assert_done(['-o', 'new'], b'new')
        for file, data in (('file', b'1'), ('new', b'new'), ('other', b'other'), (taken[0], b'taken')):
            self.assert_file(file, data)
        self.assert_files('file', 'new', 'other', *taken)

    def test_names_as_long_as_names_can_be(self):
        for name in ('n' * 255, '\u6f22' * 85, '\U00020000' * 63):
            self.assert_done(['-o', name], b'$A'.replace(b'$', b''))
            write(name, b'$A')
            self.assert_done(['-i', '-sA=1', name])
            self.assert_file(name, b'1')
            os.remove(name)
        self.assert_files()

    @unittest.skipUnless(os.getuid() == 0, 'only root can give files away')
    def test_owner_stays(self):
        for words in (['-i', 'file'], ['-o', 'file']):
            write('file', b'a')
            os.chown('file', 1, 2)
            os.chmod('file', 0o4750)
            self.assert_done(words, b'a')
            found = os.stat('file')
            self.assertTrue((found.st_uid, found.st_gid) == (1, 2), f'the owner is {found.st_uid}:{found.st_gid}')
            self.assert_mode('file', 0o4750)


def with_failing_call(call, number, words, *more, when='1'):
    """Runs the program with a failure of the first of these system calls, or of others by number. Returns how it
    ended."""
    tracing = ['-qq', '-o', '/dev/null', *more, '-e', f'inject={call}:error={errno.errorcode[number]}:when={when}']
    return run(PROGRAM, [*tracing, path_of(PROGRAM), *words], b'$A\n', name='strace', executable=shutil.which('strace'))


# How often a run is killed.
KILLS = 200
# System calls that leave the old file in place if they fail, with their errors.
CALLS = (('write', errno.EIO), ('fchmod', errno.EPERM), ('fsync', errno.EIO), ('fsync', errno.ENOSPC),
         ('rename,renameat,renameat2', errno.EACCES), ('rename,renameat,renameat2', errno.EXDEV))


def started(words):
    """Starts the program, without output."""
    return subprocess.Popen(['subst', *words], executable=path_of(PROGRAM), stdin=subprocess.DEVNULL,
                            stdout=subprocess.DEVNULL, stderr=subprocess.DEVNULL)


def usual_time(words, source):
    """Returns the median of the seconds that the program runs to replace a file."""
    times = []
    for _ in range(5):
        write('file', source)
        with started(words) as ran:
            begin = time.monotonic()
            ran.wait(SECONDS)
            times.append(time.monotonic() - begin)
    return sorted(times)[2]


# A script that mounts a file over itself, expands into it, and writes through it.
ON_A_BOUND_FILE = """
mount --bind old file || exit 99
"$@"
status=$?
ls -A >listing
"$1" -sA=1 template >file
exit $status
"""
# A script that expands into a file of a small file system, and copies the file and its folder's listing out of it.
ON_A_SMALL_DISK = """
mount -t tmpfs -o size=64k none disk && cp old disk/file || exit 99
"$@" <template
status=$?
ls -A disk >listing
cp disk/file copy
exit $status
"""


class Whole(Subst):
    """Runs that fail or are killed before they replace a file."""

    def test_system_calls_that_fail(self):
        self.need_to_run('strace', '-o', '/dev/null', 'true')
        for call, number in CALLS:
            for words in (['-i', 'old'], ['-o', 'old', 'old'], ['-o', 'old']):
                write('old', b'$A', 0o640)
                is_denied, new = number in (errno.EACCES, errno.EPERM), os.path.realpath('.old.subst-0')
                errors = not_replaced('old', number, new) if is_denied else failed('old', number)
                self.assert_ends(with_failing_call(call, number, ['-sA=1', *words]), 3, errors=errors)
                self.assert_file('old', b'$A')
                self.assert_mode('old', 0o640)
                self.assert_files('old')
            if call != 'fchmod':
                self.assert_ends(with_failing_call(call, number, ['-sA=1', '-o', 'new']), 3,
                                 errors=failed('new', number))
                self.assert_files('old')

    def test_new_file_that_cannot_be_created(self):
        self.need_to_run('strace', '-o', '/dev/null', 'true')
        for folder, words, target in (('', ['-o', 'new'], 'new'), (os.getcwd() + '/', ['-i', 'old'], 'old')):
            write('old', b'$A')
            for number in (errno.EROFS, errno.EDQUOT):
                new = f'{folder}.{target}.subst-0'
                end = with_failing_call('open,openat', number, ['-sA=1', *words], '-P', new)
                has_hint = folder and number == errno.EROFS
                errors = not_replaced(target, number, new) if has_hint else failed(target, number)
                self.assert_ends(end, 3, errors=errors)
                self.assert_file('old', b'$A')
                self.assert_files('old')

    def test_owner_that_is_refused(self):
        self.need_to_run('strace', '-o', '/dev/null', 'true')
        # Set-ID bits are lost, and if the group isn't kept, it gets the permissions of others.
        for when, group, mode in (('1', 2, 0o754), ('1+', os.getgid(), 0o744)):
            for words in (['-i', 'file'], ['-o', 'file']):
                write('file', b'$A\n')
                if os.getuid() == 0:
                    os.chown('file', 1, 2)
                os.chmod('file', 0o6754)
                self.assert_ends(with_failing_call('fchown', errno.EPERM, ['-sA=1', *words], when=when), 0)
                self.assert_file('file', b'1\n')
                found = os.stat('file')
                self.assertEqual(found.st_uid, os.getuid())
                self.assertTrue(os.getuid() != 0 or found.st_gid == group, f'the group is {found.st_gid}')
                self.assert_mode('file', mode)
                self.assert_files('file')

    def test_killed_runs_leave_the_old_file_or_the_new_one(self):
        rng, words = random.Random(1), ['-i', '-sA=1', 'file']
        old, new = (b'%b' % (line + b'-' * 1000 + b'\n') * KIB for line in (b'$A', b'1'))
        took = usual_time(words, old)
        ends = {old: 0, new: 0}
        for _ in range(KILLS):
            write('file', old)
            with started(words) as ran:
                time.sleep(rng.uniform(0, 1.2 * took))
                ran.kill()
            self.assertTrue(read('file') in ends, f'the file has {shown(read("file"))}')
            ends[read('file')] += 1
            for left in set(os.listdir()) - {'file'}:
                self.assertTrue(re.fullmatch(r'\.file\.subst-\d+', left), f'the folder has {left}')
                os.remove(left)
        self.assertTrue(min(ends.values()) > 0, f'{ends[old]} runs left the old file, and {ends[new]} the new one')

    def test_file_that_is_mounted(self):
        rights = ['-m'] if os.getuid() == 0 else ['-r', '-m']
        for file in ('old', 'file', 'template'):
            write(file, b'$A')
        self.need_to_run('unshare', *rights, 'mount', '--bind', 'old', 'file')
        for words in (['-i', 'file'], ['-o', 'file', 'file']):
            write('old', b'$A')
            end = run(PROGRAM, [*rights, 'sh', '-c', ON_A_BOUND_FILE, 'sh', path_of(PROGRAM), '-sA=1', *words],
                      name='unshare', executable=shutil.which('unshare'))
            self.assert_ends(end, 3, errors=not_replaced('file', errno.EBUSY, os.path.realpath('.file.subst-0')))
            self.assert_file('old', b'1')
            self.assert_file('listing', b'file\nlisting\nold\ntemplate\n')

    def test_full_disk(self):
        rights = ['-m'] if os.getuid() == 0 else ['-r', '-m']
        os.mkdir('disk')
        self.need_to_run('unshare', *rights, 'mount', '-t', 'tmpfs', '-o', 'size=64k', 'none', 'disk')
        write('old', b'$A' * 50)
        write('template', b'$A' * 50)
        for words, target in ((['-i', 'disk/file'], 'disk/file'), (['-o', 'disk/file'], 'disk/file'),
                              (['-o', 'disk/new'], 'disk/new')):
            tool = [path_of(PROGRAM), f'-sA={"a" * 10000}', *words]
            end = run(PROGRAM, [*rights, 'sh', '-c', ON_A_SMALL_DISK, 'sh', *tool], name='unshare',
                      executable=shutil.which('unshare'))
            self.assert_ends(end, 3, errors=failed(target, errno.ENOSPC))
            self.assert_file('copy', b'$A' * 50)
            self.assert_file('listing', b'file\n')


def modes_of(name):
    """Returns the mode of a file, if it still exists."""
    try:
        return [mode_of(name)]
    except FileNotFoundError:
        return []


class Large(Subst):
    """Large files that are replaced."""

    def test_in_place_of_what_gives_nothing(self):
        write('file', b'${A?}')
        self.assert_done(['-i', 'file'])
        self.assert_file('file', b'')

    def test_new_file_is_private_while_it_is_written(self):
        source, _ = drawn(64 * MIB)
        seen = set()
        for _ in range(5):
            write('file', source, 0o600)
            with started(['-sA=1', '-i', 'file']) as running:
                while running.poll() is None:
                    seen |= {mode for name in os.listdir() if name != 'file' for mode in modes_of(name)}
            self.assertEqual((running.returncode, oct(mode_of('file'))), (0, '0o600'))
        self.assertEqual(set(map(oct, seen)), {'0o600'})
        self.assertTrue(read('file') != source, 'the file is as before')

    def test_large_file_stays_where_the_new_one_cannot_be_written(self):
        source, _ = drawn(some_size(2 * MIB))
        write('file', source)
        self.assert_failed(['-sA=1', '-i', 'file'], failed('file', errno.EFBIG), restore_signals=False,
                           **limited(resource.RLIMIT_FSIZE, MIB))
        self.assert_file('file', source)
        self.assert_files('file')
